; Draws the sixteen digits in four rows of four, for the variant with 64 rows.

digit:  EQU V0
x:      EQU V1                  ; its position
y:      EQU V2

        LD digit, 0
        LD x, 6
        LD y, 5

; The next digit is 16 to the right, up to the fourth of its row.
next:   LD F, digit
        DRW x, y, 5
        ADD digit, 1
        ADD x, 16
        SE x, 70
        JP next

; The next row is 16 below, up to the fourth.
        LD x, 6
        ADD y, 16
        SE y, 69
        JP next
        SYS 0                   ; a call of machine code stops the game
