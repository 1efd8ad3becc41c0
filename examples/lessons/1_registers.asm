; Lesson 1: registers and arithmetic. This program adds two numbers of two bytes and
; subtracts one from the other. Every byte goes through D, and DF is the carry.

work:   EQU 0x0100              ; a byte of RAM for operands

        ORG 0x0000
start:  LDI >work
        PHI R2
        LDI <work
        PLO R2                  ; R2 points to the byte,
        SEX R2                  ; and X selects R2

        LDI 0x01                ; R5 = 0123
        PHI R5
        LDI 0x23
        PLO R5
        LDI 0x01                ; R6 = 01F8
        PHI R6
        LDI 0xF8
        PLO R6

; R7 = R5 + R6: the low bytes first, then the high ones with the carry.
sum:    GLO R6
        STR R2
        GLO R5
        ADD                     ; D = M(R2) + D, and DF is the carry
        PLO R7
        GHI R6
        STR R2
        GHI R5
        ADC                     ; the same, plus DF
        PHI R7

; R8 = R5 - R6.
less:   GLO R6
        STR R2
        GLO R5
        SM                      ; D = D - M(R2), and DF is 0 if it borrows
        PLO R8
        GHI R6
        STR R2
        GHI R5
        SMB
        PHI R8
end:    IDL
