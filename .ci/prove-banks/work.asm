        NOP
        RTN                     ; of TO2
        NOP
        NOP
        ENBANK1                 ; of THERE
        NOP
        NOP
; invariant C[13:3] = old C[13:3]
; decreases C.SX
MORE:   ?C#0 S&X
        JNC :LAST
        C=C-1 S&X
        JNC :MORE
LAST:   ENBANK1
        NOP
        NOP
        ENBANK2                 ; of TURN
        ?NC XQ :FROM2
        NOP
; ensures BANK = 1, C as before, in 2 steps
FROM2:  ENBANK1
        NOP
