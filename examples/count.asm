sum:    EQU VA
        LD sum, 2
        ADD sum, 12
        JP end                  ; the 0000 after the game stops it
end:
