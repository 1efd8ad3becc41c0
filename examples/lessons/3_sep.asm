; Lesson 3: a subroutine by SEP. R4 is the program counter of `ten`, which multiplies
; D by ten.

stack:  EQU 0x01FF

        ORG 0x0000
start:  LDI 0                   ; with P = 0, R3 becomes the program counter
        PHI R3
        PHI R4
        LDI <main
        PLO R3
        LDI >stack
        PHI R2
        LDI <stack
        PLO R2
        SEX R2
        SEP R3

main:   LDI <ten
        PLO R4
        LDI 7
        SEP R4                  ; the call: what follows runs with P = 4
        PLO R7                  ; 70
        LDI 12
        SEP R4
        PLO R8                  ; 120
end:    IDL

; The SEP that returns is right before the entry, so R4 is at the entry afterwards.
back:   SEP R3
ten:    SHL                     ; 2 D
        STR R2
        SHL
        SHL                     ; 8 D
        ADD
        BR back
