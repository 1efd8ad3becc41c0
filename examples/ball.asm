; A ball crosses the screen and turns at the edges, with a tone of three ticks.
; The game never ends.

x:      EQU V0                  ; the position of the ball
y:      EQU V1
dx:     EQU V2                  ; how far it moves in a step
dy:     EQU V3
time:   EQU V4
tone:   EQU V5
zero:   EQU V6                  ; always 0

        LD x, 20
        LD y, 10
        LD dx, 2
        LD dy, 1
        LD tone, 3
        LD I, ball

step:   DRW x, y, 4             ; draw the ball
        LD time, 2
        LD DT, time
wait:   LD time, DT             ; wait until the timer is 0
        SE time, 0
        JP wait
        DRW x, y, 4             ; erase the ball
        ADD x, dx
        ADD y, dy
        SE x, 60                ; at 60 skip the test of 0
        SNE x, 0                ; at neither skip the call
        CALL turnx
        SE y, 28
        SNE y, 0
        CALL turny
        JP step

turnx:  SUBN dx, zero           ; dx = 0 - dx
        JP beep
turny:  SUBN dy, zero           ; dy = 0 - dy
beep:   LD ST, tone
        RET

ball:   DB 0b01100000
        DB 0b11110000
        DB 0b11110000
        DB 0b01100000
