; Drops fall, and a bowl catches them: keys 4 and 6 move it. After the first missed drop
; the game shows how many were caught, and a key starts it again.

x:      EQU V3                  ; the bowl
y:      EQU V4
dx:     EQU V5
left:   EQU V6                  ; the two keys
right:  EQU V7
fx:     EQU V8                  ; the drop
fy:     EQU V9
caught: EQU VA
tone:   EQU VB

begin:  CLS
        LD x, 28
        LD y, 30
        LD left, 4
        LD right, 6
        LD caught, 0
        LD tone, 4
        LD I, bowl
        DRW x, y, 2

next:   RND fx, 0xE0            ; the three highest bits of a random byte
        SHR fx
        SHR fx
        LD fy, 0
        LD I, drop
        DRW fx, fy, 2

turn:   LD dx, 0
        SKNP left               ; skip the next line if key 4 is up
        LD dx, 252              ; 252 adds as -4
        SKNP right
        LD dx, 4
        SNE dx, 0
        JP fall
        LD I, bowl
        DRW x, y, 2
        ADD x, dx
        DRW x, y, 2

fall:   LD I, drop
        DRW fx, fy, 2
        ADD fy, 2
        DRW fx, fy, 2
        SE VF, 0                ; VF is 1 if the drop meets the bowl
        JP catch
        SE fy, 30
        JP turn

        CLS                     ; missed
        LD I, digits
        LD B, caught
        LD V2, [I]              ; V0, V1 and V2 are the three digits
        LD x, 27
        LD y, 13
        LD F, V1
        DRW x, y, 5
        ADD x, 5
        LD F, V2
        DRW x, y, 5
        LD V0, K
        JP begin

catch:  DRW fx, fy, 2
        ADD caught, 1
        LD ST, tone
        JP next

bowl:   DB 0b11111111
        DB 0b01111110
drop:   DB 0b00011000
        DB 0b00011000
digits: DS 3
