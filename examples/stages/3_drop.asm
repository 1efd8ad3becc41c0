; Stage 3: a drop falls.

x:      EQU V3
y:      EQU V4
dx:     EQU V5
left:   EQU V6
right:  EQU V7
fx:     EQU V8                  ; the drop
fy:     EQU V9

        LD x, 28
        LD y, 30
        LD left, 4
        LD right, 6
        LD I, bowl
        DRW x, y, 2

next:   RND fx, 0xE0            ; 0, 32, 64 and so on up to 224
        SHR fx
        SHR fx                  ; 0, 8, 16 and so on up to 56
        LD fy, 0
        LD I, drop
        DRW fx, fy, 2

turn:   LD dx, 0
        SKNP left
        LD dx, 252
        SKNP right
        LD dx, 4
        SNE dx, 0
        JP fall
        LD I, bowl
        DRW x, y, 2
        ADD x, dx
        DRW x, y, 2

fall:   LD I, drop
        DRW fx, fy, 2           ; erase the drop
        ADD fy, 2
        DRW fx, fy, 2           ; and draw it two rows below
        SE fy, 30
        JP turn
        DRW fx, fy, 2
        JP next

bowl:   DB 0b11111111
        DB 0b01111110
drop:   DB 0b00011000
        DB 0b00011000
