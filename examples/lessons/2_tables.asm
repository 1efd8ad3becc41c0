; Lesson 2: loops and tables. This program puts the sum of a table's bytes into RA.0
; and the largest of them into RB.0.

        ORG 0x0000
start:  LDI >work
        PHI R2
        LDI <work
        PLO R2
        SEX R2
        LDI >table
        PHI R7
        LDI <table
        PLO R7                  ; R7 points to the next byte
        LDI count
        PLO R8                  ; R8.0 counts the bytes left
        LDI 0
        PLO RA
        PLO RB

next:   LDN R7
        STR R2
        GLO RA
        ADD
        PLO RA                  ; the sum so far
        GLO RB
        SM                      ; no borrow: the largest so far is at least this byte
        BDF step
        LDN R7
        PLO RB
step:   INC R7
        DEC R8
        GLO R8                  ; a branch tests D, not a register
        BNZ next
end:    IDL                     ; data follow, which must not be executed

table:  DB 3, 41, 59, 26, 53
count:  EQU $-table
work:   DS 1
