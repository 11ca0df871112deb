; Functions for .ci/prove-module: each instruction that tools/prove-module supports.
; ensures C.SX = old C.SX, A.SX = old A.SX + 1, B.M = 0
; requires A.SX < 0FFF
ONE:    A=A+1 S&X
        B=0 M
        NOP
        RTN
; requires A.SX <= C.SX
; ensures C.SX = old C.SX - old A.SX, A.SX = old C.SX, C[13:3] as before, in 3 steps
SWAP:   A<>C S&X
        C=A-C S&X
        RTN
; ensures M = old N, C = old N, N = old M, in 4 steps
MOVE:   C<>M
        C<>N
        M=C
        RTN
; ensures S3 = 1, S4 = old S4, S5 = 0, CY = 0, MODE = DEC, PT = Q, within 9 steps
FLAGS:  SETF 3
        CLRF 5
        ?FSET 3
        JC :FLAGS_1
        SETF 5
FLAGS_1: SETDEC
        SLCT Q
        RTN
; ensures C[12:0] = old C[13:1], C.MS = old C[0], in 2 steps
ROTATE: RCR 1
        RTN
; ensures C.XS = 0, C[0] = old C[1], C[1] = old C.XS, other digits of C as before
RIGHT:  RSHFC S&X
        C=0 XS
        RTN
; ensures A.MS = old A[12], A[3] = 0, A[12:4] = old A[11:3], A[2:0] as before, in 3 steps
; requires PT = Q, P = 3, Q = 0D
LEFT:   LSHFA P-Q
        ?P=Q
        RTN
; ensures A = 0, B = 0, C = 0, in 2 steps
CLEAR:  CLRABC
        RTN
; ensures  C.SX <= old C.SX, C.SX <= old A.SX, A as before, within 4 steps
LESS:   ?A<C S&X
        ?NC RTN
        C=0 S&X
        RTN
; ensures C.M = old C.M, C.SX >= old C.SX, A.SX = C.SX, within 7 steps
; requires A.SX > C.SX
EQUAL:  ?A#C S&X
        ?C GO :EQUAL_1
        A=C S&X
        RTN
EQUAL_1: C=0 S&X
        C=A+C S&X
        RTN
; requires PT = P, P = 5, C[5:0] < 0FFFFFF
; ensures C[5:0] = old C[5:0] + 1, other digits of C as before, P = 4, in 4 steps
POINT:  C=C+1 R<
        R=R-1
        ?R= 4
        RTN
; requires C.SX <= 100
; ensures C.SX = 0, within 4 * C.SX + 7 steps
CALLS:  ?NC XQ :PLAIN
; invariant C.M as before
; decreases C.SX
CALLS_1: ?C#0 S&X
        ?NC RTN
        C=C-1 S&X
        JNC :CALLS_1
PLAIN:  A=C S&X
        RTN
; requires A.SX = 1, CY = 0
; ensures A.SX = 2, C.SX <> 124, within 6 steps
USES:   ?NC XQ :ADDS
        C=0 S&X
        RTN
; requires A.SX < 0FFE
; ensures A.SX = old A.SX + 1, within 3 steps
ADDS:   A=A+1 S&X
        RTN
; ensures C.XS = 0, C[1] = 2, C[0] = 3, C.M as before, in 3 steps
WORD:   LDI 123
        C=0 XS
        RTN
; ensures REG[0FA] = old C, REG[0C0] as before, RAM = 0FA, in 8 steps
STORE:  N=C
        LDI 0FA
        RAM SLCT
        C=N
        WRIT DATA
        C=0 ALL
        READ DATA
        RTN
; requires RAM = 0
; ensures  Z = old C, REG[004].SX as before, other registers as before, C = old L, within 9 steps
USEZ:   WRIT 1
        READ 4
        RTN
; ensures REG[0FA] = old C, REG[0C0] as before, other registers as before, within 20 steps
CALLM:  ?NC XQ :STORE2
        RTN
; ensures REG[0FA] = old C, other registers as before, within 8 steps
STORE2: N=C
        LDI 0FA
        RAM SLCT
        C=N
        WRIT DATA
        RTN
; ensures ST = old C[1:0], S8 as before, S13 as before, C as before, in 2 steps
PUT:    ST=C
        RTN
; requires PT = P, P = 3
; ensures C[4:3] = old G, G = old C[4:3], other digits of C as before
SWAPG:  C<>G
        RTN
; requires PT = P, P = 0D
; ensures G = old C[13] + 10 * old C[0]
TAKEG:  G=C
        RTN
; requires A.XS = 0F, A[0] = 0
; ensures C.XS = 0F, C[0] = old C[0], A as before, C[1] >= old A[1]
TAKE:   C=C OR A
        RTN
; ensures C[1] = 0, C[0] = 8, S3 = 1, S7 = 0, T = 8
SETS:   ST=0
        SETF 3
        C=ST
        T=ST
        RTN
; requires C.SX is BCD, BCD(C.SX) < 3E7
; ensures BCD(C.SX) = BCD(old C.SX) + 1, MODE = DEC, in 5 steps
INDEC:  ?NC XQ :TODEC
        C=C+1 S&X
        RTN
; ensures C as before, in 2 steps
TODEC:  SETDEC
        RTN
; ensures old A.SX + old C.SX >= 1000 * S8, A.SX + 1000 * S8 = old A.SX + old C.SX, within 5 steps
CARRY:  CLRF 8
        A=A+C S&X
        ?NC RTN
        SETF 8
        RTN
; requires C.SX <= 19A
; ensures C.SX = 19A, within 7 * 411 + 1 steps
UPTO:   NOP
; decreases 19A - C.SX
UPTO_1: A=C S&X
        LDI 19A
        ?A<C S&X
        ?NC RTN
        A=A+1 S&X
        A<>C S&X
        JNC :UPTO_1
; requires A.SX = 0, B.SX = 0
; ensures A.SX = C.SX, B.SX = C.SX, C as before, in 5 * C.SX + 3 steps
EACH:   NOP
; invariant A.SX <= C.SX, B.SX = A.SX, C as before
; decreases old C.SX - A.SX
EACH_1: ?A<C S&X
        ?NC RTN
        A=A+1 S&X
        B=A S&X
        JNC :EACH_1
; ensures A.SX = old C.SX, C as before, within 4 steps
SAME:   ?NC XQ :COPY
        RTN
; ensures A.SX = C.SX
COPY:   A=C S&X
        RTN
; requires A.SX <= C.SX
; ensures A.SX = C.SX, C as before, within 4 * C.SX + 5 steps
REACH:  NOP
; invariant A.SX <= C.SX
; decreases C.SX - A.SX
REACH_1: ?A<C S&X
        ?NC RTN
        A=A+1 S&X
        JNC :REACH_1
; requires A.SX = 0
; ensures A.SX = C.SX, C as before, in 4 * C.SX + 3 steps
LEVEL:  NOP
; invariant A.SX <= C.SX
; decreases C.SX - A.SX
LEVEL_1: ?A<C S&X
        ?NC RTN
        A=A+1 S&X
        JNC :LEVEL_1
; A loop that ends when ?A#C finds no difference.
; requires A.SX = 0
; ensures A.SX = C.SX, C as before, in 4 * C.SX + 3 steps
MEETS:  NOP
; invariant A.SX <= C.SX
; decreases C.SX - A.SX
MEETS_1: ?A#C S&X
        ?NC RTN
        A=A+1 S&X
        JNC :MEETS_1
; A difference that ?A#C finds: the number of A is at most that of C here, so it is less.
; requires A.SX <= C.SX, C.SX is BCD, A.SX is BCD, BCD(A.SX) <= BCD(C.SX)
; ensures A.SX + 1 <= C.SX + S8, BCD(A.SX) + 1 <= BCD(C.SX) + S8, A as before, C as before, within 5 steps
DIFFER: SETF 8
        ?A#C S&X
        ?NC RTN
        CLRF 8
        RTN
