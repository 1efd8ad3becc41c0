; Stage 1: a bowl on the screen.

x:      EQU V3
y:      EQU V4

        LD x, 28
        LD y, 30
        LD I, bowl
        DRW x, y, 2
end:    JP end

bowl:   DB 0b11111111
        DB 0b01111110
