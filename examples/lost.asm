; A dot runs to the right and starts again at the left edge.
; One line is wrong: after some rounds the game stops with StackFull.
x:      EQU V0
y:      EQU V1
edge:   EQU 60

        LD x, edge
        LD y, 12
        LD I, dot
turn:   CALL move
        DRW x, y, 2             ; draw the dot
        DRW x, y, 2             ; and erase it
        JP turn

move:   ADD x, 4
        SE x, edge
        RET
        LD x, 0
        JP turn                 ; wrong: without RET the return address stays on the stack

dot:    DB 0b11000000, 0b11000000
