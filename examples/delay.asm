; A delay: R7 counts down from 3. Entered at 8000 with P = 3, it leaves by SEP R4.
                ORG     0x8000
delay:          LDI     3
                PLO     R7
again:          DEC     R7
                GLO     R7
                BNZ     again
                SEP     R4
