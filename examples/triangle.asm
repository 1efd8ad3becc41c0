; Lights the dots (x, y) whose numbers have no bit in common: Sierpinski's triangle.
; A tile of 8 by 8 dots has the same pattern. The game draws it at each position whose
; column and row have no bit in common either. Then the game stops.

x:      EQU V0                  ; the position of a tile
y:      EQU V1
both:   EQU V2                  ; their common bits

        LD I, tile
        LD y, 0
row:    LD x, 0
place:  LD both, x
        AND both, y
        SE both, 0              ; skip if it is 0
        JP next
        DRW x, y, 8             ; draw the eight rows of the tile
next:   ADD x, 8
        SE x, 64
        JP place
        ADD y, 8
        SE y, 32
        JP row
        SYS 0                   ; a call of machine code stops the game

tile:   DB 0b11111111
        DB 0b10101010
        DB 0b11001100
        DB 0b10001000
        DB 0b11110000
        DB 0b10100000
        DB 0b11000000
        DB 0b10000000
