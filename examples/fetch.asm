; The fetch of the CHIP-8 interpreter with 32 rows, at its address 8027 in the ROM, with the
; names of the rest of its source (crates/chip8_source/src/fetch.rt). It is entered at `fetch`
; with P = 4, reads the opcode at R5 and goes to its routine by SEP R3. If R5 isn't in game
; memory, it goes to the stop.
FIRST:          EQU     0x0200          ; the first address of game memory
END:            EQU     0x0EA0          ; the first address past it
VARS:           EQU     0x0EF0          ; V0 to VF
FETCH_OUTSIDE:  EQU     3               ; the number of a stop
stopped:        EQU     0x80F6          ; the code of all stops
table:          EQU     0x8064          ; the dispatch table

                ORG     0x8027
outside:        LDI     >stopped
                PHI     R3
                LDI     <stopped
                PLO     R3
                LDI     FETCH_OUTSIDE
                PLO     RE
dispatch:       SEP     R3
fetch:          GHI     R5
                SMI     >FIRST
                BNF     outside         ; pc is below FIRST
upper:          GLO     R5
                SDI     <END-2
                GHI     R5
                SDBI    >END-2
                BNF     outside         ; pc is above END - 2
inside:         LDI     >VARS
                PHI     R6
                PHI     R7
                LDA     R5
                PHI     RC
                ANI     0x0F
                ADI     <VARS
                PLO     R6
                LDA     R5
                PLO     RC
                SHR
                SHR
                SHR
                SHR
                ADI     <VARS
                PLO     R7
                LDI     >table
                PHI     RD
                GHI     RC
                SHR
                SHR
                SHR
                SHR
                SHL
                ADI     <table
                PLO     RD              ; RD at the two bytes for the opcode's first digit
                LDA     RD
                PHI     R3
                LDN     RD
                PLO     R3
                BR      dispatch
