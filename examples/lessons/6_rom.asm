; Lesson 6: a program in ROM, and how long a routine takes. Q is on for one wait and
; off for another.

        ORG 0x8000
reset:  LBR start               ; read at 0000 while the boot latch is set
start:  OUT 4                   ; clears the latch: RAM is at 0000 now; since
        DB  0                   ; X = P = 0, OUT sends this byte
        LDI >main
        PHI R3
        PHI R4
        LDI <main
        PLO R3
        LDI <wait
        PLO R4
        SEP R3

main:   SEQ
        SEP R4
        REQ
        SEP R4
end:    IDL

back:   SEP R3
wait:   LDI 200
        PLO R7
turn:   DEC R7
        GLO R7
        BNZ turn
        BR  back
