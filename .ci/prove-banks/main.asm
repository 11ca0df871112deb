; A function that returns in bank 2, and its caller, which continues there.
; ensures BANK = 2, C as before, in 2 steps
TO2:    ENBANK2
        NOP
; ensures C as before, in 5 steps
THERE:  ?NC XQ :TO2
        NOP
        RTN

; A loop in bank 2.
; ensures C.SX = 0, other digits of C as before, in 4 * C.SX + 5 steps
DOWN:   ENBANK2
        NOP
        NOP
        NOP
        NOP
        NOP
        RTN

; Bank 2 is activated twice, and a function of bank 2 returns in bank 1.
; ensures C as before, in 6 steps
TURN:   ENBANK2
        NOP
        NOP
        NOP
        RTN
        NOP
        RTN

; Bank 1 is active already.
; ensures BANK = 1, C as before, in 2 steps
STAY:   ENBANK1
        RTN
