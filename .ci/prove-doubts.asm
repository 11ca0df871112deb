; Functions for .ci/prove-module that are not proved: each claim is false only from states that no trial meets.
; ensures 3 * C.M + 5 * A.M <> 0DDDDDDD
TWICE:  ?C#0 XS
        ?C RTN
        NOP
        RTN
; ensures 3 * C.M + 5 * A.M <> 0DDDDDDD
JOINED: ?C#0 XS
        JNC :JOINED_1
        NOP
JOINED_1: RTN
; ensures C as before
CALLER: ?NC XQ :NEEDS
        RTN
; requires 3 * C.M + 5 * A.M <> 0DDDDDDD
; ensures C as before
NEEDS:  NOP
        RTN
; ensures within 6 * C.SX + 99 steps
LOOP:   NOP
; invariant 3 * C.M + 5 * A.M <> 0DDDDDDD
; decreases C.SX - A.SX
ROUND:  ?C#0 S&X
        ?NC RTN
        C=C-1 S&X
        C=C+1 M
        NOP
        JNC :ROUND
; requires A.SX = 0
; ensures in 5 * C.SX + 3 steps
EXACT:  NOP
; invariant A.SX <= C.SX, 3 * C.M + 5 * A.M <> 0DDDDDDD
; decreases C.SX - A.SX
EACH:   ?A<C S&X
        ?NC RTN
        A=A+1 S&X
        NOP
        JNC :EACH
