; Lesson 5: the display. Each byte of the screen is its own address. An interrupt
; routine shows 32 rows of 8 bytes, each in four raster lines.

screen: EQU 0x0200
stack:  EQU 0x01FF

        ORG 0x0000
start:  LDI >show
        PHI R1
        LDI <show
        PLO R1                  ; R1 is the interrupt routine
        LDI >stack
        PHI R2
        LDI <stack
        PLO R2                  ; R2 is the stack; DMA uses R0
        LDI >main
        PHI R3
        LDI <main
        PLO R3
        SEP R3

main:   LDI >screen
        PHI R7
        LDI <screen
        PLO R7
fill:   GLO R7
        STR R7
        INC R7
        GLO R7
        BNZ fill
        SEX R2
        INP 1                   ; the display is on
stay:   BR stay

; The interrupt comes 30 cycles before the first DMA cycle, with P = 1 and X = 2. The
; routine saves and restores T, which has the old X and P, and D.
        PAGE
leave:  LDXA
        RET
show:   NOP                     ; three cycles: later cycles are even
        DEC R2
        SAV
        DEC R2
        STR R2
        LDI >screen
        PHI R0
        LDI <screen
        PLO R0
        SEX R2                  ; (SEX R2 waits two cycles)
        SEX R2
        SEX R2
row:    GLO R0
        SEX R2                  ; the eight DMA cycles come here
        DEC R0
        PLO R0                  ; R0 is at the row's start again
        SEX R2
        DEC R0
        PLO R0
        SEX R2
        DEC R0
        PLO R0
        SEX R2
        BN1 row                 ; the fourth line; EF1 is active in the last row
        BR leave
