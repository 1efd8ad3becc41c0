; Fills the screen with 16 by 8 random diagonals, which make a maze. Then the screen
; is unchanged.

x:      EQU V0                  ; the position of a diagonal
y:      EQU V1
chance: EQU V2                  ; 0 or 64, at random

        LD y, 0
row:    LD x, 0
place:  LD I, down
        RND chance, 0x40        ; one bit of a random byte
        SE chance, 0            ; skip if it is 0
        LD I, up
        DRW x, y, 4
        ADD x, 4
        SE x, 64
        JP place
        ADD y, 4
        SE y, 32
        JP row
end:    JP end

down:   DB 0b10000000
        DB 0b01000000
        DB 0b00100000
        DB 0b00010000

up:     DB 0b00010000
        DB 0b00100000
        DB 0b01000000
        DB 0b10000000
