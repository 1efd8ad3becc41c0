; A pen draws a line while key 2, 4, 6 or 8 is down: up, left, right or down, one dot
; per frame. A lit dot is erased. Key 5 stops the game.

x:      EQU V0                  ; the position of the pen
y:      EQU V1
key2:   EQU V2                  ; the keys
key4:   EQU V3
key6:   EQU V4
key8:   EQU V5
key5:   EQU V6

        LD x, 32
        LD y, 16
        LD key2, 2
        LD key4, 4
        LD key6, 6
        LD key8, 8
        LD key5, 5
        LD I, dot
draw:   DRW x, y, 1
keys:   SKNP key2               ; skip if the key is up
        JP up
        SKNP key4
        JP left
        SKNP key6
        JP right
        SKNP key8
        JP down
        SKNP key5
        SYS 0                   ; a call of machine code stops the game
        JP keys

up:     ADD y, 255              ; y = y - 1
        JP draw
left:   ADD x, 255
        JP draw
right:  ADD x, 1
        JP draw
down:   ADD y, 1
        JP draw

dot:    DB 0b10000000
