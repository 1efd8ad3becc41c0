; Shows how an interpreter follows twelve rules in which interpreters of CHIP-8 differ.
; Under the number of each rule is a tick if it is RCA's rule or our choice, else a cross.
; Rule C waits for a key.

x:      EQU VA                  ; the position of the next mark
y:      EQU VB
right:  EQU VD                  ; 1 if the rule is as expected
rule:   EQU VE                  ; its number

; The tests use V0 to V3 and VF.

        LD x, 2
        LD rule, 1

; 1: OR, AND and XOR put 0 into VF
        LD VF, 5
        OR V0, V1
        LD right, 0
        SNE VF, 0               ; skip if VF isn't 0
        LD right, 1
        CALL mark

; 2: a shift takes its value from VY
        LD V0, 0
        LD V1, 8
        SHR V0, V1              ; V0 = V1 shifted right
        LD right, 0
        SNE V0, 4
        LD right, 1
        CALL mark

; 3: FX55 moves I: the second byte is stored after the first
        LD I, room
        LD V0, 1
        LD [I], V0
        LD V0, 0xA5
        LD [I], V0
        LD I, room
        LD V0, [I]
        LD right, 0
        SNE V0, 1
        LD right, 1
        CALL mark

; 4: a sprite ends at the right edge: at x = 60 it lights nothing at x = 0
        LD I, bar
        LD V0, 60
        LD V1, 28
        DRW V0, V1, 1
        LD V0, 0
        DRW V0, V1, 1
        LD V2, VF               ; V2 = 1 if a pixel was lit there
        DRW V0, V1, 1           ; erase both again
        LD V0, 60
        DRW V0, V1, 1
        LD right, 0
        SNE V2, 0
        LD right, 1
        CALL mark

; 5: a sprite ends at the bottom: two rows from y = 31 on light nothing at y = 0
        LD I, bar
        LD V0, 28
        LD V1, 31
        DRW V0, V1, 2
        LD V1, 0
        DRW V0, V1, 1
        LD V2, VF
        DRW V0, V1, 1
        LD V1, 31
        DRW V0, V1, 2
        LD right, 0
        SNE V2, 0
        LD right, 1
        CALL mark

; 6: BMMM adds V0 to the address, not the variable named by the address's first digit
        LD V0, 2
        LD V2, 0
        LD V3, 0
        LD right, 0
        JP V0, table
table:  JP same
        LD right, 1
same:   CALL mark

; 7: FX1E leaves VF unchanged, even if I passes 0FFF
        LD VF, 5
        LD I, 0xFFF
        LD V0, 1
        ADD I, V0
        LD right, 0
        SNE VF, 5
        LD right, 1
        CALL mark

; 8: the flag is written last, so VF has the flag even if VF is also the sum
        LD VF, 255
        LD V1, 1
        ADD VF, V1              ; VF = VF + V1, which is 0, with a carry
        LD right, 0
        SNE VF, 1
        LD right, 1
        CALL mark

; 9: FX29 takes the low digit of VX: 11 is the digit 1
        LD V0, 0x11
        LD F, V0
        LD V0, [I]
        LD V2, V0
        LD V0, 1
        LD F, V0
        LD V0, [I]
        LD right, 0
        SNE V0, V2              ; skip if V0 and V2 differ
        LD right, 1
        CALL mark

; A: a sprite that begins beyond the screen begins at x modulo 64
        LD I, bar
        LD V0, 66
        LD V1, 28
        DRW V0, V1, 1
        LD V0, 2
        DRW V0, V1, 1
        LD V2, VF               ; V2 = 1 if it was erased there
        LD right, 0
        SNE V2, 1
        LD right, 1
        CALL mark

; B: each sprite waits for the display, so sixteen sprites take sixteen ticks
        LD I, bar
        LD V1, 2
        LD V2, 28
        LD V0, 32
        LD DT, V0               ; DT = 32
        LD V0, 16
again:  DRW V1, V2, 1
        ADD V0, 255
        SE V0, 0
        JP again
        LD V0, DT
        LD V1, 24
        SUB V1, V0              ; VF = 1 if DT is at most 24
        LD right, 0
        SNE VF, 1
        LD right, 1
        CALL mark

; C: FX0A ends when the key is released
        LD right, 1
        LD V0, K
        SKNP V0                 ; skip if the key is up
        LD right, 0
        CALL mark
end:    JP end

; Draws the number of a rule, and below it a tick or a cross.
mark:   LD y, 4
        LD F, rule
        DRW x, y, 5
        LD y, 12
        LD I, tick
        SE right, 1
        LD I, cross
        DRW x, y, 5
        ADD x, 5
        ADD rule, 1
        RET

tick:   DB 0b00000000
        DB 0b00010000
        DB 0b00100000
        DB 0b10100000
        DB 0b01000000
cross:  DB 0b00000000
        DB 0b10010000
        DB 0b01100000
        DB 0b01100000
        DB 0b10010000
bar:    DB 0b11111111
        DB 0b11111111
room:   DS 2
