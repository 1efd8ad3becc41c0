; Tests an interpreter of CHIP-8 by itself. It shows 25 fields, each with its number and a
; tick, or a cross if something in it isn't as expected. The 25th waits for a key, to be held
; for a moment. If all have a tick, a tone follows. docs/QUIRKS.md lists what each field tests.
;
; BMMM isn't tested, since a game that has it can't be certified.

x:      EQU V9                  ; the position of the next field
y:      EQU VA
tens:   EQU VB                  ; its number
ones:   EQU VC
all:    EQU VD                  ; FF while no field has a cross
right:  EQU VE                  ; FF while the field is right

; The tests use V0 to V8 and VF. Columns 60 to 63 and rows 30 and 31 belong to no field.

        LD ones, 1
        LD all, 0xFF
        LD right, 0xFF

; 1: 00E0, in each corner, leaves VF; VF of a sprite that is drawn, and that is erased
        LD I, dot
        LD V0, 0
        LD V1, 0
        LD V2, 63
        LD V3, 31
        DRW V0, V1, 1
        DRW V0, V3, 1
        DRW V2, V1, 1
        DRW V2, V3, 1
        SE VF, 0
        LD right, 0
        LD VF, 7
        CLS
        SE VF, 7
        LD right, 0
        DRW V0, V1, 1
        SE VF, 0
        LD right, 0
        DRW V0, V1, 1
        SE VF, 1
        LD right, 0
        DRW V0, V1, 1
        SE VF, 0
        LD right, 0
        DRW V0, V1, 1
        CALL dark
        LD V1, 31
        CALL dark
        LD V0, 63
        CALL dark
        LD V1, 0
        CALL dark
        CALL show

; 2: 1MMM, 6XKK, 3XKK, with each bit of KK
        LD V3, 0x5A
        LD V5, 0xFF             ; VY and V0 don't matter
        LD V0, 0x5A
        LD VF, 7
        SE V3, 0x5A
        LD right, 0
        SE V3, 0x5B
        SE V3, 0x5A
        LD right, 0
        SE V3, 0x58
        SE V3, 0x5A
        LD right, 0
        SE V3, 0x5E
        SE V3, 0x5A
        LD right, 0
        SE V3, 0x52
        SE V3, 0x5A
        LD right, 0
        SE V3, 0x4A
        SE V3, 0x5A
        LD right, 0
        SE V3, 0x7A
        SE V3, 0x5A
        LD right, 0
        SE V3, 0x1A
        SE V3, 0x5A
        LD right, 0
        SE V3, 0xDA
        JP skip2
        LD right, 0
skip2:  SE VF, 7                ; a jump and a skip leave VF unchanged
        LD right, 0
        CALL show

; 3: 4XKK, with each bit of KK
        LD V3, 0x5A
        LD V0, 0x5B
        LD VF, 7
        SNE V3, 0x5A
        JP skip3
        LD right, 0
skip3:  SNE V3, 0x5B
        LD right, 0
        SNE V3, 0x58
        LD right, 0
        SNE V3, 0x5E
        LD right, 0
        SNE V3, 0x52
        LD right, 0
        SNE V3, 0x4A
        LD right, 0
        SNE V3, 0x7A
        LD right, 0
        SNE V3, 0x1A
        LD right, 0
        SNE V3, 0xDA
        LD right, 0
        SE VF, 7
        LD right, 0
        CALL show

; 4: 5XY0 and 9XY0, with each bit of VY
        LD V1, 0x5A
        LD V2, 0x5A
        LD VF, 7
        SE V1, V2
        LD right, 0
        SNE V1, V2
        JP same
        LD right, 0
same:   SE VF, 7
        LD right, 0
        LD V3, 1                ; the bit
bits:   LD V2, V1
        XOR V2, V3
        SNE V1, V2
        LD right, 0
        SE V1, V2
        JP differ
        LD right, 0
differ: SNE V3, 0x80
        JP passed
        ADD V3, V3
        JP bits
passed: CALL show

; 5: 7XKK wraps, and leaves VF unchanged
        LD VF, 7
        LD V0, 250
        ADD V0, 10
        SE V0, 4
        LD right, 0
        ADD V0, 0xFB
        SE V0, 255
        LD right, 0
        SE VF, 7
        LD right, 0
        CALL show

; 6: 8XY0 to 8XY3
        LD V1, 0x3C
        LD V2, 0xA5
        LD V0, V2
        SE V0, 0xA5
        LD right, 0
        OR V0, V1
        SE V0, 0xBD
        LD right, 0
        AND V0, V2
        SE V0, 0xA5
        LD right, 0
        XOR V0, V1
        SE V0, 0x99
        LD right, 0
        SE V1, 0x3C
        LD right, 0
        LD V1, 0xAA
        LD V0, 0x55
        XOR V0, V1
        SE V0, 0xFF
        LD right, 0
        AND V0, V1
        SE V0, 0xAA
        LD right, 0
        XOR V0, V1
        SE V0, 0
        LD right, 0
        LD V0, 0x55
        AND V0, V1
        SE V0, 0
        LD right, 0
        LD V0, 0x55
        OR V0, V1
        SE V0, 0xFF
        LD right, 0
        CALL show

; 7: OR, AND and XOR set VF to 0, and 8XY0 leaves it unchanged
        LD V1, 0x3C
        LD VF, 1
        LD V0, V1
        SE VF, 1
        LD right, 0
        OR V0, V1
        SE VF, 0
        LD right, 0
        LD VF, 1
        AND V0, V1
        SE VF, 0
        LD right, 0
        LD VF, 1
        XOR V0, V1
        SE VF, 0
        LD right, 0
        CALL show

; 8: 8XY4
        LD V0, 0xC8
        LD V1, 0x64
        ADD V0, V1
        SE V0, 0x2C
        LD right, 0
        SE VF, 1
        LD right, 0
        ADD V0, V1
        SE V0, 0x90
        LD right, 0
        SE VF, 0
        LD right, 0
        LD V0, 0x9C
        ADD V0, V1              ; 256 has a carry
        SE VF, 1
        LD right, 0
        LD V0, 0x9B
        ADD V0, V1              ; 255 has none
        SE VF, 0
        LD right, 0
        CALL show

; 9: 8XY5: VF is 1 if there is no borrow
        LD V0, 10
        LD V1, 7
        SUB V0, V1
        SE V0, 3
        LD right, 0
        SE VF, 1
        LD right, 0
        SUB V0, V1
        SE V0, 0xFC
        LD right, 0
        SE VF, 0
        LD right, 0
        LD V0, 7
        SUB V0, V1              ; equal values have none
        SE VF, 1
        LD right, 0
        CALL show

; 10: 8XY7
        LD V0, 7
        LD V1, 10
        SUBN V0, V1
        SE V0, 3
        LD right, 0
        SE VF, 1
        LD right, 0
        LD V0, 20
        SUBN V0, V1
        SE V0, 0xF6
        LD right, 0
        SE VF, 0
        LD right, 0
        LD V0, 10
        SUBN V0, V1
        SE VF, 1
        LD right, 0
        CALL show

; 11: 8XY6 shifts VY's value, and leaves VY unchanged
        LD V0, 0
        LD V1, 0x8B
        SHR V0, V1
        SE V0, 0x45
        LD right, 0
        SE VF, 1
        LD right, 0
        SE V1, 0x8B
        LD right, 0
        LD V1, 0xFE
        SHR V0, V1
        SE V0, 0x7F
        LD right, 0
        SE VF, 0
        LD right, 0
        CALL show

; 12: 8XYE shifts VY's value, and leaves VY unchanged
        LD V0, 0
        LD V1, 0x8B
        SHL V0, V1
        SE V0, 0x16
        LD right, 0
        SE VF, 1
        LD right, 0
        SE V1, 0x8B
        LD right, 0
        LD V1, 0x7F
        SHL V0, V1
        SE V0, 0xFE
        LD right, 0
        SE VF, 0
        LD right, 0
        CALL show

; 13: the flag is written last: VF has it even if X is F
        LD VF, 254
        LD V1, 2
        ADD VF, V1
        SE VF, 1
        LD right, 0
        LD VF, 9
        SUB VF, V1
        SE VF, 1
        LD right, 0
        LD V1, 8
        SHR VF, V1
        SE VF, 0
        LD right, 0
        SHL VF, V1
        SE VF, 0
        LD right, 0
        LD VF, 1
        SUBN VF, V1
        SE VF, 1
        LD right, 0
        LD VF, 6
        OR VF, V1
        SE VF, 0
        LD right, 0
        CALL show

; 14: VF as an operand has its old value
        LD VF, 5
        LD V0, 3
        ADD V0, VF
        SE V0, 8
        LD right, 0
        LD VF, 5
        SUB V0, VF
        SE V0, 3
        LD right, 0
        LD VF, 5
        SUBN V0, VF
        SE V0, 2
        LD right, 0
        LD VF, 9
        SHR V0, VF
        SE V0, 4
        LD right, 0
        LD VF, 0x83
        SHL V0, VF
        SE V0, 6
        LD right, 0
        LD VF, 0x41
        OR V0, VF
        SE V0, 0x47
        LD right, 0
        CALL show

; 15: 2MMM and 00EE, twelve deep, leave VF unchanged
        LD V0, 0
        LD V1, 0
        LD VF, 7
        CALL deep1
        SE V0, 12
        LD right, 0
        SE V1, 66               ; each return of 1 to 11, once
        LD right, 0
        SE VF, 7
        LD right, 0
        CALL show

; 16: AMMM, and FX1E, which leaves VF unchanged
        LD VF, 7
        LD V0, 3
        LD I, table
        ADD I, V0
        LD V0, [I]
        SE V0, 0x13
        LD right, 0
        LD V0, 15
        LD I, table
        ADD I, V0
        LD V0, [I]
        SE V0, 0x1F
        LD right, 0
        LD V0, 255
        LD I, 0xFFF
        ADD I, V0
        SE VF, 7
        LD right, 0
        CALL show

; 17: FX29, of the low digit of VX, and the font, by the sum of each digit's bytes
        LD V6, 0
font:   LD F, V6
        LD V4, [I]
        ADD V0, V1
        ADD V0, V2
        ADD V0, V3
        ADD V0, V4
        LD V5, V0
        LD V7, 15
        AND V7, V6
        LD I, sums
        ADD I, V7
        LD V0, [I]
        SE V0, V5
        LD right, 0
        ADD V6, 1
        SE V6, 32
        JP font
        CALL show

; 18: FX33 of each number leaves I and the byte after the digits
        LD V3, 0x77
        LD I, room
        LD [I], V3
        LD V5, 0                ; its digits, counted
        LD V6, 0
        LD V7, 0
        LD V8, 0
number: LD I, room
        LD B, V8
        LD V2, [I]              ; I is unchanged
        SE V0, V7
        LD right, 0
        SE V1, V6
        LD right, 0
        SE V2, V5
        LD right, 0
        ADD V5, 1
        SE V5, 10
        JP next
        LD V5, 0
        ADD V6, 1
        SE V6, 10
        JP next
        LD V6, 0
        ADD V7, 1
next:   ADD V8, 1
        SE V8, 0
        JP number
        LD I, room
        LD V3, [I]
        SE V3, 0x77
        LD right, 0
        CALL show

; 19: FX55 and FX65 use V0 to VX and no more, and leave VF unchanged
        LD VF, 7
        LD V0, 0x10
        LD V1, 0x11
        LD V2, 0x12
        LD V3, 0x13
        LD V4, 0x14
        LD V5, 0x15
        LD V6, 0x16
        LD V7, 0x17
        LD I, room
        LD [I], V7
        LD V0, 0x20
        LD V1, 0x21
        LD V2, 0x22
        LD V3, 0x23
        LD V4, 0x24
        LD I, room
        LD [I], V3              ; the bytes are 20 21 22 23 14 15 16 17
        LD V7, 0x27
        LD I, room
        LD V6, [I]
        SE V3, 0x23
        LD right, 0
        SE V4, 0x14
        LD right, 0
        SE V6, 0x16
        LD right, 0
        SE V7, 0x27
        LD right, 0
        LD I, room
        LD V7, [I]
        SE V0, 0x20
        LD right, 0
        SE V5, 0x15
        LD right, 0
        SE V7, 0x17
        LD right, 0
        SE VF, 7
        LD right, 0
        LD I, room
        LD [I], VF
        LD VF, 0
        LD I, room
        LD VF, [I]
        SE VF, 7
        LD right, 0
        CALL show

; 20: FX55 and FX65 move I past the last byte
        LD V0, 0x10
        LD V1, 0x11
        LD V2, 0x12
        LD V3, 0x13
        LD I, room
        LD [I], V3
        LD I, room
        LD [I], V1
        LD [I], V0              ; the bytes are 10 11 10 13
        LD I, room
        LD V1, [I]
        LD V0, [I]
        SE V0, 0x10
        LD right, 0
        LD V0, [I]
        SE V0, 0x13
        LD right, 0
        LD I, room
        LD V3, [I]
        SE V2, 0x10
        LD right, 0
        CALL show

; 21: CXKK has only the bits of KK, each of them, and gives different numbers
        LD V3, 0                ; the bits seen
        LD V4, 0
        LD V5, 64
        LD V6, 0                ; how often a number was repeated
        LD V7, 0
random: RND V0, 0x3C
        OR V3, V0
        SNE V0, V7
        ADD V6, 1
        LD V7, V0
        RND V0, 0xC3
        OR V4, V0
        ADD V5, 255
        SE V5, 0
        JP random
        SE V3, 0x3C
        LD right, 0
        SE V4, 0xC3
        LD right, 0
        LD V0, 32
        SUBN V6, V0             ; at most 32 times
        SE VF, 1
        LD right, 0
        LD VF, 7
        RND V0, 0
        SE V0, 0
        LD right, 0
        SE VF, 7
        LD right, 0
        CALL show

; 22: sprites end at the right and bottom edges, and only dots that are drawn count for VF
        LD I, block
        LD V0, 60
        LD V1, 30
        DRW V0, V1, 1
        LD V0, 0
        CALL dark
        LD V0, 3
        CALL dark
        LD V0, 63
        CALL lit
        LD I, block
        LD V0, 60
        DRW V0, V1, 1
        LD V1, 31
        DRW V0, V1, 3
        SE VF, 0
        LD right, 0
        LD V1, 0
        CALL dark
        LD V1, 1
        CALL dark
        LD V1, 31
        CALL lit
        LD I, block
        DRW V0, V1, 3
        SE VF, 1
        LD right, 0
        LD V2, 11               ; a dot that the first, second or third row erases
hits:   LD I, dot
        LD V1, 11
        DRW V0, V1, 1
        LD I, block
        DRW V0, V2, 3
        SE VF, 1
        LD right, 0
        DRW V0, V2, 3
        LD I, dot
        DRW V0, V1, 1
        ADD V2, 0xFF
        SE V2, 8
        JP hits
        CALL show

; 23: a sprite begins at x modulo 64, y modulo the rows; N rows, the highest bit leftmost;
; DXY0 draws nothing
        LD I, dot
        LD V0, 125
        LD V1, 94
        DRW V0, V1, 1
        LD V0, 61
        LD V1, 30
        CALL lit
        LD V0, 62
        CALL dark
        LD I, dot
        LD V0, 61
        DRW V0, V1, 1
        LD I, block
        LD V0, 4                ; over two bytes
        DRW V0, V1, 1
        LD V0, 11
        CALL lit
        LD V0, 12
        CALL dark
        LD I, block
        LD V0, 4
        DRW V0, V1, 1
        LD I, bars
        LD V0, 61
        LD V1, 0
        DRW V0, V1, 15
        CALL lit
        LD V0, 61
        LD V1, 14
        CALL lit
        LD V0, 63
        CALL dark
        LD V0, 61
        LD V1, 15
        CALL dark
        LD I, dot
        LD V1, 14
        DRW V0, V1, 0
        SE VF, 0
        LD right, 0
        CALL lit
        LD I, bars
        LD V1, 0
        DRW V0, V1, 15
        SE VF, 1
        LD right, 0
        LD V1, 9
        CALL dark
        CALL show

; 24: a sprite waits for a tick; FX07 and FX15; DT stays at 0
        LD I, dot
        LD V0, 62
        LD V1, 30
        LD V2, 40
        LD DT, V2
        DRW V0, V1, 1
        DRW V0, V1, 1
        DRW V0, V1, 1
        DRW V0, V1, 1
        DRW V0, V1, 1
        DRW V0, V1, 1
        DRW V0, V1, 0
        DRW V0, V1, 0
        LD V3, DT
        LD V4, 32
        SUB V4, V3              ; DT is at most 32
        SE VF, 1
        LD right, 0
        LD V4, 28
        SUBN V4, V3             ; and at least 28
        SE VF, 1
        LD right, 0
        LD V2, 3
        LD DT, V2
        LD V3, DT
        SNE V3, 0
        LD right, 0
        LD V4, 0
        LD V5, 0
falls:  LD V3, DT
        SNE V3, 0
        JP fallen
        ADD V4, 1               ; give up after a while
        SE V4, 0
        JP falls
        ADD V5, 1
        SE V5, 32
        JP falls
        LD right, 0
fallen: DRW V0, V1, 1
        DRW V0, V1, 1
        LD V3, DT
        SE V3, 0
        LD right, 0
        CALL show

; 25: EX9E and EXA1 with all keys up and with one down; FX0A ends when the key is released
        LD V0, 0
up:     SKNP V0
        LD right, 0
        SKP V0
        JP isup
        LD right, 0
isup:   ADD V0, 1
        SE V0, 16
        JP up
        LD V0, 0
poll:   ADD V0, 1
        LD V1, 15
        AND V0, V1
        SKP V0
        JP poll
        SKNP V0
        JP down
        LD right, 0
down:   LD V1, K
        SE V1, V0
        LD right, 0
        SKNP V1
        LD right, 0
        CALL show

        LD V0, 60
        SNE all, 0xFF
        LD ST, V0
end:    JP end

; Draws the number of a field and its tick or cross, and sets the next field to right.
show:   LD V0, tens
        CALL digit
        LD V0, ones
        CALL digit
        LD I, tick
        SE right, 0xFF
        CALL wrong
        DRW x, y, 5
        ADD x, 4
        LD right, 0xFF
        ADD ones, 1
        SE ones, 10
        JP place
        LD ones, 0
        ADD tens, 1
place:  SE x, 60
        RET
        LD x, 0
        ADD y, 6
        RET

wrong:  LD I, cross
        LD all, 0
        RET

digit:  LD I, digits
        ADD I, V0
        ADD I, V0
        ADD I, V0
        ADD I, V0
        ADD I, V0
        DRW x, y, 5
        ADD x, 4
        RET

; Expects the dot at V0, V1 to be dark, or lit, and restores it.
dark:   LD I, dot
        DRW V0, V1, 1
        SE VF, 0
        LD right, 0
        DRW V0, V1, 1
        RET

lit:    LD I, dot
        DRW V0, V1, 1
        SE VF, 1
        LD right, 0
        DRW V0, V1, 1
        RET

; Twelve calls, one in the other.
deep1:  ADD V0, 1
        CALL deep2
        ADD V1, 1
        RET
deep2:  ADD V0, 1
        CALL deep3
        ADD V1, 2
        RET
deep3:  ADD V0, 1
        CALL deep4
        ADD V1, 3
        RET
deep4:  ADD V0, 1
        CALL deep5
        ADD V1, 4
        RET
deep5:  ADD V0, 1
        CALL deep6
        ADD V1, 5
        RET
deep6:  ADD V0, 1
        CALL deep7
        ADD V1, 6
        RET
deep7:  ADD V0, 1
        CALL deep8
        ADD V1, 7
        RET
deep8:  ADD V0, 1
        CALL deep9
        ADD V1, 8
        RET
deep9:  ADD V0, 1
        CALL deep10
        ADD V1, 9
        RET
deep10: ADD V0, 1
        CALL deep11
        ADD V1, 10
        RET
deep11: ADD V0, 1
        CALL deep12
        ADD V1, 11
        RET
deep12: ADD V0, 1
        RET

sums:   DB 0x90, 0x30, 0x60, 0xF0, 0x30, 0x60, 0xE0, 0xA0
        DB 0xF0, 0x70, 0x90, 0xC0, 0x60, 0x70, 0xD0, 0x60
table:  DB 0x10, 0x11, 0x12, 0x13, 0x14, 0x15, 0x16, 0x17
        DB 0x18, 0x19, 0x1A, 0x1B, 0x1C, 0x1D, 0x1E, 0x1F
dot:    DB 0b10000000
block:  DB 0b11111111, 0b11111111, 0b11111111
bars:   DB 0b11000000, 0b11000000, 0b11000000, 0b11000000, 0b11000000
        DB 0b11000000, 0b11000000, 0b11000000, 0b11000000, 0b11000000
        DB 0b11000000, 0b11000000, 0b11000000, 0b11000000, 0b10000000, 0b11000000
digits: DB 0b11100000, 0b10100000, 0b10100000, 0b10100000, 0b11100000
        DB 0b01000000, 0b11000000, 0b01000000, 0b01000000, 0b11100000
        DB 0b11100000, 0b00100000, 0b11100000, 0b10000000, 0b11100000
        DB 0b11100000, 0b00100000, 0b11100000, 0b00100000, 0b11100000
        DB 0b10100000, 0b10100000, 0b11100000, 0b00100000, 0b00100000
        DB 0b11100000, 0b10000000, 0b11100000, 0b00100000, 0b11100000
        DB 0b11100000, 0b10000000, 0b11100000, 0b10100000, 0b11100000
        DB 0b11100000, 0b00100000, 0b01000000, 0b01000000, 0b01000000
        DB 0b11100000, 0b10100000, 0b11100000, 0b10100000, 0b11100000
        DB 0b11100000, 0b10100000, 0b11100000, 0b00100000, 0b11100000
tick:   DB 0b00000000
        DB 0b00100000
        DB 0b00100000
        DB 0b10100000
        DB 0b01000000
cross:  DB 0b00000000
        DB 0b10100000
        DB 0b01000000
        DB 0b10100000
        DB 0b00000000
room:   DS 16
