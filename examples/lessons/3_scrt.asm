; Lesson 3: subroutines that call others, by the routines of scrt.asm, which must
; follow: cat 3_scrt.asm scrt.asm. The result is 100 times 2, plus 5.

stack:  EQU 0x01FF

        ORG 0x0000
start:  LDI >main
        PHI R3
        LDI <main
        PLO R3
        LDI >call
        PHI R4
        LDI <call
        PLO R4
        LDI >return
        PHI R5
        LDI <return
        PLO R5
        LDI >stack
        PHI R2
        LDI <stack
        PLO R2
        SEX R2
        SEP R3

main:   LDI 2
        SEP R4
        DW  hundred
        SEP R4
        DW  plus
        DB  5
        PLO R7                  ; 205
end:    IDL

hundred: SEP R4
        DW  ten
        SEP R4
        DW  ten
        SEP R5

ten:    SHL
        STR R2
        SHL
        SHL
        ADD
        SEP R5

; Adds the byte after the call to D.
plus:   STR R2
        LDA R6
        ADD
        SEP R5
