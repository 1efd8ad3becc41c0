; Shows the keypad: a box for each key, filled while the key is down. This program
; runs on the bare board in RAM, with its own interrupt routine. It shows each row of
; the screen in four raster lines.

screen: EQU 0x0200          ; 32 rows of 8 bytes
empty:  EQU 0x42
full:   EQU 0x7E
stack:  EQU 0x01FF

        ORG 0x0000

; R1 is the interrupt routine, R2 the stack. R3 becomes the program counter, since DMA
; uses R0.
        LDI >show
        PHI R1
        LDI <show
        PLO R1
        LDI >stack
        PHI R2
        LDI <stack
        PLO R2
        LDI >main
        PHI R3
        LDI <main
        PLO R3
        SEP R3

; R4.0 is the key, R5 points to its box, R6.0 counts rows, R7.0 fills the space
; between the sides, and R8 points to the positions of the boxes.
main:   SEX R2
        INP 1               ; the display is on
keys:   LDI >boxes
        PHI R8
        LDI <boxes
        PLO R8
        LDI 0
        PLO R4
key:    LDI >screen
        PHI R5
        LDA R8
        PLO R5
        GLO R4
        STR R2
        OUT 2               ; select the key
        DEC R2
        LDI full
        B3 draw             ; the key is down
        LDI empty
draw:   PLO R7
        LDI full            ; the upper edge
        STR R5
        LDI 4
        PLO R6
side:   GLO R5              ; the next row
        ADI 8
        PLO R5
        GLO R7
        STR R5
        DEC R6
        GLO R6
        BNZ side
        GLO R5
        ADI 8
        PLO R5
        LDI full            ; the lower edge
        STR R5
        INC R4
        GLO R4
        XRI 16
        BNZ key
        BR keys

; The address of each box on the screen, for this keypad:
;   1 2 3 C
;   4 5 6 D
;   7 8 9 E
;   A 0 B F
boxes:  DB 0xCB             ; 0
        DB 0x0A,0x0B,0x0C   ; 1, 2, 3
        DB 0x4A,0x4B,0x4C   ; 4, 5, 6
        DB 0x8A,0x8B,0x8C   ; 7, 8, 9
        DB 0xCA,0xCC        ; A, B
        DB 0x0D,0x4D,0x8D,0xCD

; The interrupt comes 30 cycles before the first DMA cycle. The routine uses all but
; four of them to set R0. Then each raster line leaves time for three instructions,
; which reset R0 to the start of the row.
        PAGE
return: LDXA
        RET
show:   NOP                 ; three cycles: DMA cycles then come between
        DEC R2              ; instructions
        SAV
        DEC R2
        STR R2
        LDI >screen
        PHI R0
        LDI <screen
        PLO R0
        SEX R2
        SEX R2
        SEX R2
row:    GLO R0
        SEX R2
        DEC R0              ; after the first line of the row
        PLO R0
        SEX R2
        DEC R0              ; the second
        PLO R0
        SEX R2
        DEC R0              ; the third
        PLO R0
        SEX R2
        BN1 row             ; the fourth; EF1 is active in the last row
        BR return
