"""Rows of .ci/prove-module: claims with their errors, and sources whose claims are false."""

REGISTER = ("a register (A B C M N, or X Y Z L REG[0FA] in memory), with a field as in C.SX or places as in C[5:3], BCD(C.M), G, T, P, Q, "
            "CY, ST, RAM or a status bit as in S8")
COUNT = "a number of steps, as in `within 3 steps` or `in 4 * C.SX + 2 steps`"
COUNTED = "`within` for at most so many steps, or `in` for exactly so many, as in `within 3 steps`"
ONLY_ENSURES = "a claim about registers, because only `ensures` says in how many steps the function returns"

# Claims, with the column and the text of their error; or with the claims as they are understood.
CLAIMS = [
    ("requires C.SX <=", 19, f"found the end of the claims, expected {REGISTER}, or a number"),
    ("requires C.SX <= 0FE,", 24, f"found the end of the claims, expected {REGISTER}, or a number"),
    ("ensures C.Q = 1", 11, "found `C.Q`, expected one of the fields SX, XS, M, MS and ALL after the point, or places as in C[5:3]"),
    ("requires old C = 1", 12, "found `old`, expected no `old`, because `requires` is about the state in which the function begins"),
    ("ensures within 0F steps", 18, "found `0F`, expected a decimal number, because a number of steps is decimal"),
    ("ensures within 3", 19, "found the end of the claims, expected `steps`, as in `within 3 steps`"),
    ("ensures in 4 * C.SX + 2 cycles", 27, "found `cycles`, expected `steps`, as in `in 4 * C.SX + 2 steps`"),
    ("ensures within steps", 18, f"found `steps`, expected {COUNT}"),
    ("ensures within about 3 steps", 18, f"found `about`, expected {COUNT}"),
    ("ensures in", 13, f"found the end of the claims, expected {COUNT}"),
    ("ensures 3 steps", 11, f"found `3`, expected {COUNTED}"),
    ("ensures C = 0, takes 3 steps", 18, f"found `takes`, expected {COUNTED}"),
    ("ensures steps <= 3", 11, f"found `steps`, expected {COUNTED}"),
    ("requires within 3 steps", 12, f"found `within`, expected {ONLY_ENSURES}"),
    ("invariant returns", 13, f"found `returns`, expected {ONLY_ENSURES}"),
    ("requires 3 steps", 12, f"found `3`, expected {ONLY_ENSURES}"),
    ("ensures in 3 steps, within 5 steps", 23, "found `within`, expected one number of steps, because `in 3 steps` is claimed already"),
    ("ensures C = 0, in 4 * (410 - C.SX) + 2 steps", 18, "found `in 4 * (410 - C.SX) + 2`, in which a term is negative, expected a sum "
     "without subtraction: claim a number that is large enough, with `within`"),
    ("ensures C.SX * 4 = 4", 16, "found `*`, expected the number of a multiple first, as in `4 * C.SX`"),
    ("ensures S8 * C.SX = 4", 14, "found `*`, expected no product of two registers: a claim compares sums, and a multiple has a number, as "
     "in `4 * C.SX`"),
    ("ensures (A.SX + 1) * 4 = 4", 22, "found `*`, expected the number of a multiple first, as in `4 * C.SX`"),
    ("ensures old C.SX / 2 = C.SX", 20, "found `/`, expected no quotient: a claim compares sums, so write a multiple on the other side, as in "
     "`2 * C.SX <= old C.SX`"),
    ("requires 1 <= C.SX <= 9", 22, "found `<=`, expected `,`: a claim has one comparison, as in `1 <= C.SX, C.SX <= 9`"),
    ("requires V = 1", 12, f"found `V`, expected {REGISTER}"),
    ("requires C.SX < FFF", 19, "found `FFF`, expected a number that begins with a digit, as in 0FF"),
    ("ensures C.SX = 1 or C.SX = 0", 20, "found `or`, expected `,`: all claims of a list are true; for cases, see Cases in "
     "docs/PROVE-YOUR-MODULE.md"),
    ("requires C[14] = 1", 14, "found `14`, expected a place from 0 to 13"),
    ("requires C[3:5] = 1", 16, "found `5`, expected a place that is not higher than the one before it"),
    ("requires C[3 = 1", 16, "found `=`, expected `]`"),
    ("requires BANK = 1", 12, "found `BANK`, expected no `BANK`, because a label is in one bank: only `ensures` can name another one"),
    ("ensures BANK = 5", 18, "found `5`, expected `1` or `2` or `3` or `4`"),
    ("requires MODE = OCT", 19, "found `OCT`, expected `HEX` or `DEC`"),
    ("requires S14 = 1", 12, f"found `S14`, expected {REGISTER}"),
    ("requires C.SX 1", 17, "found `1`, expected one of the signs = <> < <= > >="),
    ("ensures C.SX 1", 16, "found `1`, expected one of the signs = <> < <= > >=, or `as before`"),
    ("ensures other digits of C.SX as before", 27, "found `C.SX`, expected a register without a field"),
    ("requires (C.SX + 1 = 3", 22, "found `=`, expected `)`"),
    ("requires C = 1; B = 2", 17, "found `;`, expected `,`"),
    ("decreases C.SX, C.M", 17, "found `,`, expected the end of the claims"),
    ("requires C.SX <= 0FE, A = 0", 0, "C.SX <= 0FE|A = 0"),
    ("ensures C.SX = old C.SX + 1, other digits of C as before, in 3 steps", 0, "C.SX = old C.SX + 1|other digits of C as before|in 3 "
                        "steps"),
    ("ensures C[5:3] as before, S8 = 1, MODE = DEC, returns", 0, "C[5:3] as before|S8 = 1|MODE = DEC"),
    ("require C.SX = 1", 3, "found `require`, expected `requires`, or another comment"),
    ("ensure C = 1", 3, "found `ensure`, expected `ensures`, or another comment"),
    ("invarient C as before", 3, "found `invarient`, expected `invariant`, or another comment"),
    ("decrease C.SX", 3, "found `decrease`, expected `decreases`, or another comment"),
    ("ensures C.M is unchanged, S8 is unchanged, G as before", 0, "C.M is unchanged|S8 is unchanged|G as before"),
    ("requires REG[010] = 1", 16, "found `010`, expected the address of a register of memory, from 000 to 00F or from 0C0 to 1FF"),
    ("requires BCD(G) = 1", 16, "found `G`, expected a register of 14 digits, with a field as in C.SX or places as in C[5:3]"),
    ("ensures BCD(C.M + 1) = 1", 19, "found `+`, expected `)`"),
    ("ensures other registers of C as before", 27, "found `of`, expected `as`"),
    ("ensures C.M is 3", 18, "found `3`, expected `BCD`"),
    ("requires X.SX is BCD, BCD(X.SX) < 3E7, RAM = 0, ST = 3", 0, "X.SX is BCD|BCD(X.SX) < 3E7|RAM = 0|ST = 3"),
    ("ensures REG[0FA].M = old REG[0FA][12:3], other registers as before", 0, "REG[0FA].M = old REG[0FA][12:3]|other registers as before"),
    ("ensures 2 * (A.M - B.M) >= 10, within 4 * C.SX + 2 steps", 0, "2 * (A.M - B.M) >= 10|within 4 * C.SX + 2 steps"),
]

# A counterexample: a source, and the beginning of each line.
FALSE = [
    ("; ensures C.SX = old C.SX + 1\nA: C=C+1 S&X\nRTN\n",
     ["a.asm:1: `C.SX = old C.SX + 1`: false: from C=", ": the left side is 0, the right side is 1000"]),
    ("; ensures A as before, in 1 step\nA: A=0 XS\nRTN\n", ["`A as before`: false: from A=", "`in 1 step`: false: from ", "it takes 2 "
                        "steps, expected 1"]),
    ("; ensures within 2 steps\nA: NOP\nNOP\nRTN\n", ["it takes 3 steps, expected at most 2"]),
    ("; requires A.SX <= C.SX\n; ensures A.SX < C.SX\nA: ?A#C S&X\n?C RTN\nRTN\n", ["`A.SX < C.SX`: false: from A="]),
    ("; requires A.SX = 0\n; ensures A.SX = C.SX, in 4 * C.SX + 2 steps\nA: NOP\n; invariant A.SX <= C.SX\n; decreases C.SX - A.SX\n"
     "B: ?A#C S&X\n?NC RTN\nA=A+1 S&X\nJNC :B\n", ["`in 4 * C.SX + 2 steps`: false: from A="]),
    ("; ensures MODE = HEX\nA: SETDEC\nRTN\n", ["`MODE = HEX`: false: from MODE=HEX it leaves MODE=DEC"]),
    # A register that only the number of steps names.
    ("; ensures within A.SX steps\nA: RTN\n", ["`within A.SX steps`: false: from A=00000000000000 it takes 1 step, expected at most 0"]),
    ("; ensures C = C\nA: ?NC XQ 0952\nRTN\n", ["`returns`: false: from ", "it is refused: ! 08 SystemRom 0952"]),
    ("; ensures C = C\nA: JNC :A\n", ["`returns`: false: from ", "it has not returned after 100,000 steps"]),
    # Memory: a register that no claim names, an address that is never selected, a register of the processor that is never set.
    ("; ensures X = old Y, other registers as before\nA: C=0 S&X\nRAM SLCT\nREAD 2\nWRIT 3\nC=0 ALL\nWRIT 4\nRTN\n",
     ["`other registers as before`: false: from C=", " L=", "it leaves L=00000000000000"]),
    ("; ensures X = 0\nA: C=0 ALL\nWRIT 3\nRTN\n", ["`X = 0`: false: from C=", " X="]),
    ("; requires PT = P\n; ensures X = 5000000000000\nA: C=0 S&X\nRAM SLCT\nR= 12\nLD@R 5\nWRIT 3\nRTN\n", ["`X = 5000000000000`: false"]),
    ("; requires RAM = 0, X.SX is BCD\n; ensures BCD(X.SX) = BCD(old X.SX) + 1\nA: READ 3\nSETDEC\nC=C+1 S&X\nSETHEX\nWRIT 3\nRTN\n",
     ["`BCD(X.SX) = BCD(old X.SX) + 1`: false: from C=", " RAM=000 X=", "999 it leaves RAM=003 X=", "the left side is 0, the right side is 3E8"]),
    ("; requires MODE = DEC, A.M is BCD, C.M is BCD\n; ensures BCD(C.M) = BCD(old A.M) + BCD(old C.M)\nA: C=A+C M\nRTN\n",
     ["`BCD(C.M) = BCD(old A.M) + BCD(old C.M)`: false"]),
    ("; ensures ST = old C[1:0], T = old ST\nA: ST=C\nT=ST\nRTN\n", ["`T = old ST`: false"]),
    # The conversion by counting at 1000, and a sum of two loops that does not begin with zero.
    ("; requires A.SX <= 3E8\n; ensures BCD(C.SX) = old A.SX\nA: C=0 S&X\nB: ?A#0 S&X\n?NC RTN\nA=A-1 S&X\nSETDEC\nC=C+1 S&X\nSETHEX\n"
     "JNC :B\n",
     ["`BCD(C.SX) = old A.SX`: false: from A=", "3E8 C=", "the left side is 0, the right side is 3E8"]),
    ("; requires A.SX <= 0FF, C.SX <= 0FF\n; ensures C.SX = old A.SX\nA: ?A#0 S&X\n?NC RTN\nA=A-1 S&X\nC=C+1 S&X\nJNC :A\n",
     ["`C.SX = old A.SX`: false"]),
    # A loop that never ends for odd numbers, and one that ends too early.
    ("; ensures within 5 * C.SX + 9 steps\nA: C=C-1 S&X\nC=C-1 S&X\n?C#0 S&X\nJC :A\nRTN\n", ["it has not returned after 100,000 steps"]),
    ("; ensures C.SX = 0\nA: C=C-1 S&X\n?C#0 XS\nJC :A\nRTN\n", ["`C.SX = 0`: false"]),
    # A loop that never ends for one number: zero is doubled to zero.
    ("; ensures within 40 steps\nA: C=C+C S&X\nJNC :A\nRTN\n", ["`returns`: false: from ", "000 M=", "it has not returned after 100,000"]),
    # Subtle mistakes: a carry that is lost at 999, a register that is never set, and a loop that ends for all numbers but one.
    ("; requires MODE = DEC, C.SX <= 999\n; ensures C.SX <> 0\nA: C=C+1 S&X\nRTN\n", ["`C.SX <> 0`: false: from C=", "999 MODE=DEC it "
                        "leaves"]),
    ("; ensures B.M = old C.M\nA: A<>C M\nRTN\n", ["`B.M = old C.M`: false"]),
    # Numbers that only the instructions have: of a word, of a digit, and in a field that no claim names.
    ("; ensures C.M <> 4\nA: A=C S&X\nLDI 2A7\n?A#C S&X\n?C RTN\nC=0 M\nA=0 M\nA=A+1 M\nC=A+C M\nC=C+C M\nC=C+C M\nRTN\n",
     ["`C.M <> 4`: false: from A=", "2A7 it leaves C=000000000042A7: the left side is 4, the right side is 4"]),
    ("; ensures B.XS = old B.XS\nA: LDI 1C6\nA=A-1 S&X\n?A#C S&X\n?C RTN\nB=0 XS\nRTN\n", ["`B.XS = old B.XS`: false: from A=", "1C7 B="]),
    # A sum whose carry is noted in a status bit, with a number that is one too large.
    ("; ensures old A.SX + old C.SX >= 1001 * S8\nA: CLRF 8\nA=A+C S&X\n?NC RTN\nSETF 8\nRTN\n",
     ["`old A.SX + old C.SX >= 1001 * S8`: false: from A=", "the left side is 1000, the right side is 1001"]),
    ("; requires C.SX < 3\n; ensures within 100 steps\nA: C=C-1 S&X\n?C#0 S&X\nJC :A\nRTN\n", ["000 it takes 12289 steps, expected at "
                        "most 100"]),
]
