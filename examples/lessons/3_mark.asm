; Lesson 3: a subroutine by MARK and RET. It restores X and P of any caller, and reads
; its argument from the byte after the call.

stack:  EQU 0x01FF

        ORG 0x0000
start:  LDI 0
        PHI R3
        PHI R4
        LDI <main
        PLO R3
        LDI <ten
        PLO R4
        LDI >stack
        PHI R2
        LDI <stack
        PLO R2
        SEX R2
        SEP R3

main:   MARK                    ; M(R2) = X and P, R2 falls by 1, X = P
        SEP R4
        DB 7                    ; the argument
        DEC R2                  ; RET leaves R2 one too high
        PLO R7                  ; 70
        MARK
        SEP R4
        DB 12
        DEC R2
        PLO R8                  ; 120
end:    IDL

; Here X is the caller's P: LDXA reads the byte after the call, and the caller resumes
; after that byte.
back:   RET                     ; X and P are the caller's again
ten:    LDXA
        SEX R2
        SHL
        STR R2
        SHL
        SHL
        ADD
        IRX                     ; R2 is at the byte of MARK
        BR back
