; Page 9. docs/PROVE-YOUR-MODULE.md explains the comments before the labels.

; requires C.SX <= 0FFE
; ensures  C.SX = old C.SX + 1, other digits of C as before, in 2 steps
PLUS:   C=C+1 S&X
        RTN
