; Stage 2: keys 4 and 6 move the bowl.

x:      EQU V3
y:      EQU V4
dx:     EQU V5                  ; how far the bowl moves
left:   EQU V6
right:  EQU V7

        LD x, 28
        LD y, 30
        LD left, 4
        LD right, 6
        LD I, bowl
        DRW x, y, 2

turn:   LD dx, 0
        SKNP left               ; skip the next line if key 4 is up
        LD dx, 252              ; 252 adds as -4
        SKNP right
        LD dx, 4
        SNE dx, 0
        JP turn
        DRW x, y, 2             ; erase the bowl
        ADD x, dx
        DRW x, y, 2             ; and draw it again
        JP turn

bowl:   DB 0b11111111
        DB 0b01111110
