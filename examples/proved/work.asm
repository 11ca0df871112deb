; Bank 2 of page 8.
        NOP                     ; WORKS begins in bank 1
        ?NC XQ :PLUS            ; page 9
        ?NC XQ :TWICE           ; this bank
        ENBANK1                 ; the next word is read in bank 1
        NOP

; requires C.SX <= 7FF
; ensures  C.SX = 2 * old C.SX, other digits of C as before, in 2 steps
TWICE:  C=C+C S&X
        RTN
