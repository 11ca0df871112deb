; Bank 1 of page 8.

; Works in bank 2: the next word after ENBANK2 is read there. The words at the same places here are never executed.
; requires C.SX <= 7FE
; ensures  C.SX = 2 * old C.SX + 2, other digits of C as before, in 9 steps
WORKS:  ENBANK2
        NOP
        NOP
        NOP
        NOP
        NOP
        RTN                     ; after ENBANK1 of bank 2

; Calls a function of page 9, and one that works in bank 2.
; requires C.SX <= 7FD
; ensures  C.SX = 2 * old C.SX + 4, other digits of C as before, in 14 steps
BOTH:   ?NC XQ :PLUS
        ?NC XQ :WORKS
        RTN

; Each round of the loop calls the function of page 9.
; requires  A.SX <= 100, C.SX <= 100
; ensures   C.SX = old C.SX + old A.SX, in 7 * A.SX + 2 steps
; invariant C.SX + A.SX = old C.SX + old A.SX, A.SX <= 100
; decreases A.SX
TIMES:  ?A#0 S&X
        ?NC RTN
        A=A-1 S&X
        ?NC XQ :LIB.PLUS
        JNC :TIMES
