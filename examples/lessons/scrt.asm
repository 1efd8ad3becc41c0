; The standard call and return technique. Any routine calls any other, as deep as
; the stack allows:
;
;       SEP R4                  ; calls `name`
;       DW  name
;       DB  5                   ; with its arguments, read by LDA R6
;
;       SEP R5                  ; is the last instruction of a routine
;
; R2 is the stack and grows down from a free byte. R3 is the program counter of every
; routine, R4 that of `call`, R5 that of `return`. R6 points to the byte after the call.
; Both keep D, in RE.0, and leave X = 2. Both must be in one page.

        SEP R3
call:   PLO RE
        SEX R2
        GHI R6                  ; pushes the caller's own link
        STXD
        GLO R6
        STXD
        GHI R3                  ; the address after SEP R4 is the link
        PHI R6
        GLO R3
        PLO R6
        LDA R6                  ; the two bytes there are the address
        PHI R3
        LDA R6
        PLO R3
        GLO RE
        BR call-1

        SEP R3
return: PLO RE
        SEX R2
        GHI R6                  ; the caller resumes after its arguments
        PHI R3
        GLO R6
        PLO R3
        IRX
        LDXA                    ; pops the caller's own link
        PLO R6
        LDX
        PHI R6
        GLO RE
        BR return-1
