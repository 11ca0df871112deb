; Functions whose claims are proved for every state: tools/prove-module examples/proved.asm
; docs/PROVE-YOUR-MODULE.md explains the comments before the labels.

; The four words of the first run.
; ensures  C.SX = 124, other digits of C as before, in 3 steps
FOUR:   LDI 123
        C=C+1 S&X
        RTN

; requires C.SX <= 0FFE
; ensures  C.SX = old C.SX + 1, other digits of C as before, in 2 steps
PLUS:   C=C+1 S&X
        RTN

; Two calls: the proof uses what PLUS ensures, not its words.
; requires C.SX <= 0FFD
; ensures  C.SX = old C.SX + 2, other digits of C as before, in 7 steps
TWICE:  ?NC XQ :PLUS
        ?NC XQ :PLUS
        RTN

; The larger one of A and C minus the smaller one. Both ways after the test are proved.
; ensures  C.M <= old A.M + old C.M, other digits of C as before, within 5 steps
APART:  ?A<C M
        JC :SWAPS
        C=A-C M
        RTN
SWAPS:  A<>C M
        C=A-C M
        RTN

; A loop that counts down.
; ensures   C.SX = 0, other digits of C as before, in 4 * C.SX + 2 steps
; invariant C[13:3] = old C[13:3]
; decreases C.SX
DOWN:   ?C#0 S&X
        ?NC RTN
        C=C-1 S&X
        JNC :DOWN

; A sum by counting: A receives the sum, C becomes zero.
; requires A.SX <= 0E00, C.SX <= 0100
; ensures  A.SX = old A.SX + old C.SX, C.SX = 0, other digits of C as before, other digits of A as before
; ensures  in 5 * C.SX + 3 steps
SUM:    NOP
; invariant A.SX + C.SX = old A.SX + old C.SX, C[13:3] = old C[13:3], A[13:3] = old A[13:3]
; decreases C.SX
MORE:   ?C#0 S&X
        ?NC RTN
        C=C-1 S&X
        A=A+1 S&X
        JNC :MORE

; Two digits at the pointer, and a status bit.
; requires PT = P
; ensures  C[12] = 5, C[11] = 3, other digits of C as before, P = 0A, S7 = 1, S6 = old S6, in 5 steps
DIGITS: R= 12
        LD@R 5
        LD@R 3
        SETF 7
        RTN

; FIVE of docs/FIRST-MODULE.md: X becomes 5, and no other register of memory changes.
; requires PT = P
; ensures  X = 5000000000000, other registers as before, RAM = 3, in 6 steps
FIVE:   C=0 ALL
        RAM SLCT
        R= 12
        LD@R 5
        WRIT 3
        RTN

; X10 of docs/FIRST-MODULE.md, for numbers that are not zero: the decimal exponent of X grows by 1.
; requires RAM = 0, X.M > 0, X.SX is BCD, BCD(X.SX) < 3E7
; ensures  BCD(X.SX) = BCD(old X.SX) + 1, X.SX is BCD, other digits of X as before, other registers as before
; ensures  RAM = 3, in 8 steps
X10:    READ 3
        ?C#0 M
        ?NC RTN
        SETDEC
        C=C+1 S&X
        SETHEX
        WRIT 3
        RTN

; X and Y exchange.
; ensures  X = old Y, Y = old X, other registers as before, in 9 steps
XY:     C=0 S&X
        RAM SLCT
        READ 2
        A=C ALL
        READ 3
        WRIT 2
        A<>C ALL
        WRIT 3
        RTN

; The status bits S7 to S0 become two digits of C, and G becomes two others.
; requires PT = P, P = 3
; ensures  C[1:0] = old ST, C[4:3] = old G, other digits of C as before, ST as before, in 3 steps
BYTES:  C=ST
        C=G
        RTN

; A mask in A keeps a digit of C, and clears another one.
; requires A.XS = 0F, A[0] = 0
; ensures  C.XS = old C.XS, C[0] = 0, C[1] <= old A[1], A as before, in 2 steps
MASK:   C=C AND A
        RTN

; A hexadecimal number becomes a decimal one, by counting both.
; requires A.SX <= 3E7
; ensures  BCD(C.SX) = old A.SX, C.SX is BCD, in 7 * A.SX + 3 steps
DECIMAL: C=0 S&X
; invariant BCD(C.SX) + A.SX = old A.SX, C.SX is BCD
; decreases A.SX
COUNT:  ?A#0 S&X
        ?NC RTN
        A=A-1 S&X
        SETDEC
        C=C+1 S&X
        SETHEX
        JNC :COUNT

; The sum of two decimal numbers of ten digits. The carry becomes S0; 2540BE400 is 10000000000.
; requires MODE = DEC, A.M is BCD, C.M is BCD
; ensures  BCD(C.M) + 2540BE400 * S0 = BCD(old A.M) + BCD(old C.M), C.M is BCD, other digits of C as before, within 5 steps
ADD:    CLRF 0
        C=A+C M
        ?NC RTN
        SETF 0
        RTN

; Two loops, one after another.
; requires A.SX <= 0100, B.SX <= 0100
; ensures  C.SX = old A.SX + old B.SX, in 5 * A.SX + 7 * B.SX + 5 steps
BOTH:   C=0 S&X
; invariant C.SX + A.SX = old A.SX, B.SX = old B.SX
; decreases A.SX
FIRST:  ?A#0 S&X
        JNC :SECOND
        A=A-1 S&X
        C=C+1 S&X
        JNC :FIRST
; invariant C.SX + B.SX = old A.SX + old B.SX
; decreases B.SX
SECOND: ?B#0 S&X
        ?NC RTN
        A<>B S&X
        A=A-1 S&X
        A<>B S&X
        C=C+1 S&X
        JNC :SECOND

; A call of a function whose number of steps depends on C.
; ensures C.SX = 0, A as before, in 4 * C.SX + 4 steps
CALLER: ?NC XQ :DOWN
        RTN

; A loop that calls a function.
; requires A.SX <= 100, C.SX <= 100
; ensures  C.SX = old C.SX + 2 * old A.SX, in 10 * A.SX + 2 steps
; invariant C.SX + 2 * A.SX = old C.SX + 2 * old A.SX, A.SX <= 100
; decreases A.SX
TIMES:  ?A#0 S&X
        ?NC RTN
        A=A-1 S&X
        ?NC XQ :PLUS
        ?NC XQ :PLUS
        JNC :TIMES
