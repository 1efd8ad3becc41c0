; Adds up the keys that are pressed and shows the sum modulo 256 in three digits.
; Key 0 stops the game. Keys A to F count as 10 to 15. V0 to V2 are the digits.

sum:    EQU V3
x:      EQU V4                  ; the position of a digit
y:      EQU V5
key:    EQU V6

        LD sum, 0
        LD y, 13
show:   CLS
        LD I, digits
        LD B, sum               ; the sum in decimal
        LD V2, [I]              ; V0, V1 and V2 are its digits
        LD x, 23
        LD F, V0                ; the font's digit of V0
        DRW x, y, 5
        ADD x, 6
        LD F, V1
        DRW x, y, 5
        ADD x, 6
        LD F, V2
        DRW x, y, 5
        LD key, K               ; wait until a key was down and up
        SNE key, 0
        SYS 0                   ; a call of machine code stops the game
        ADD sum, key
        JP show

digits: DS 3
