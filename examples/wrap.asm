sum:    EQU VA
        ADD sum, 0xFF
        ADD sum, 2              ; modulo 256
        SYS 0                   ; a call of machine code stops the game
