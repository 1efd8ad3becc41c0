; Stage 4: the bowl catches the drop, and the first missed drop ends the game.

x:      EQU V3
y:      EQU V4
dx:     EQU V5
left:   EQU V6
right:  EQU V7
fx:     EQU V8
fy:     EQU V9
caught: EQU VA                  ; how many drops were caught
tone:   EQU VB

        LD x, 28
        LD y, 30
        LD left, 4
        LD right, 6
        LD caught, 0
        LD tone, 4
        LD I, bowl
        DRW x, y, 2

next:   RND fx, 0xE0
        SHR fx
        SHR fx
        LD fy, 0
        LD I, drop
        DRW fx, fy, 2

turn:   LD dx, 0
        SKNP left
        LD dx, 252
        SKNP right
        LD dx, 4
        SNE dx, 0
        JP fall
        LD I, bowl
        DRW x, y, 2
        ADD x, dx
        DRW x, y, 2

fall:   LD I, drop
        DRW fx, fy, 2
        ADD fy, 2
        DRW fx, fy, 2
        SE VF, 0                ; VF is 1 if a lit pixel was erased
        JP catch
        SE fy, 30
        JP turn
end:    JP end

catch:  DRW fx, fy, 2           ; erase the drop
        ADD caught, 1
        LD ST, tone
        JP next

bowl:   DB 0b11111111
        DB 0b01111110
drop:   DB 0b00011000
        DB 0b00011000
