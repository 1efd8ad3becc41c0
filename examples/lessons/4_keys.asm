; Lesson 4: ports, Q and keys. A key sounds while it is down, and its number is stored
; from 0100 on. Key F ends the program.

list:   EQU 0x0100
work:   EQU 0x01FF

        ORG 0x0000
start:  LDI >work
        PHI R2
        LDI <work
        PLO R2
        SEX R2
        LDI >list
        PHI R7
        LDI <list
        PLO R7
        PLO R8

scan:   INC R8
        GLO R8
        STR R2
        OUT 2                   ; its low four bits select the key
        DEC R2                  ; OUT has incremented R(X)
        BN3 scan                ; EF3 is active if that key is down
        SEQ
hold:   B3 hold
        REQ
        GLO R8
        ANI 0x0F
        STR R7
        INC R7
        XRI 0x0F
        BNZ scan
end:    IDL
