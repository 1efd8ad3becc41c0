; Multiplies two bytes by shifts and additions, from the highest bit of the factor.
; The program starts at address 0000 with R0 as the program counter. It ends idle, with
; the high byte of the product in R5.1 and the low byte in R5.0.

        ORG 0x0000

bits:   EQU 8               ; the number of bits of a factor

; R3 becomes the program counter, since DMA uses R0.
        LDI >start
        PHI R3
        LDI <start
        PLO R3
        SEP R3

; R5 is the product so far, R6.0 counts the bits, R7 points to the factors. R8.0 is
; the first factor, and R8.1 has the remaining bits of the second.
start:  LDI >factors
        PHI R7
        LDI <factors
        PLO R7
        LDA R7              ; the first factor, to be added
        PLO R8
        LDN R7              ; the second factor, to be shifted out
        PHI R8
        LDI 0
        PLO R5
        PHI R5
        LDI bits
        PLO R6
        SEX R2              ; ADD reads a byte of the stack
        LDI >scratch
        PHI R2
        LDI <scratch
        PLO R2

; Doubles the product, and adds the first factor if the next bit is 1.
next:   GLO R5
        SHL
        PLO R5
        GHI R5
        SHLC
        PHI R5
        GHI R8
        SHL
        PHI R8
        BNF even
        GLO R8
        STR R2
        GLO R5
        ADD
        PLO R5
        GHI R5
        ADCI 0
        PHI R5
even:   DEC R6
        GLO R6
        BNZ next
        IDL

factors:
        DB 25, 0x0D         ; 325 is 0145
scratch:
        DS 1
