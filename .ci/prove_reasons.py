"""Rows of .ci/prove-programs about lines that are not supported: the line, and a part of the reason."""

GUIDE = "see the supported lines in docs/PROVE-YOUR-MODULE.md"

UNSUPPORTED = [
    ("SIN", f"this line is not supported: {GUIDE}"),
    ("SF 01", "this line is not supported: the theorem says that the program changes no flag, and a claim cannot name one: keep 0 or 1 in a data "
              "register instead, as in STO 05, and compare it with X=0?"),
    ("CF 01", "the program changes no flag"),
    ("FS? 01", "a claim cannot name a flag, so it is not known whether it is set: keep 0 or 1 in a data register instead, and compare it "
               "with X=0?"),
    ("FC?C 01", "a claim cannot name a flag"),
    ("VIEW 01", "claims say nothing about the display: put this line outside of the lines with claims, for example after the XEQ that calls them"),
    ("VIEW X", "claims say nothing about the display"),
    ("AVIEW", "claims say nothing about the display"),
    ('"AB"', "claims say nothing about ALPHA: put this line outside of the lines with claims"),
    ("ARCL 01", "claims say nothing about ALPHA"),
    ("CLRG", "the theorem names each data register that a line writes, and this line clears all of them: write 0 and then a line such as STO 05 "
             "for each register that matters"),
    ("RND", "its result depends on the number of decimals in the display, which a claim cannot name: claim the number before it is rounded, and "
            "put this line outside of the lines with claims"),
    ("FIX 4", "the theorem says that the program changes no flag, and this line changes some: put this line outside of the lines with claims, "
              "for example before the XEQ that calls them"),
    ("DEG", "the theorem says that the program changes no flag, and this line changes some"),
    ("ST+ Y", "operands that are registers of the stack, X, Y, Z, T and L, are not supported: use a data register, as in STO 05"),
    ("STO IND X", "operands that are registers of the stack"),
    ("STOP", "the theorem says that the program returns, and this line ends the run: write RTN"),
]

# A counter with an increment, in a loop.
INCREMENT = ("; requires X is a number\n; ensures X = 0\nLBL \"A\"\n1.01002\nSTO 00\n0\nLBL 01\nISG 00\nGTO 01\nEND\n",
             "a.txt:8: `ISG 00`: R00 contains 1.01002, a counter with an increment, which is not supported: count by 1, with at most three "
             "decimals, as in 1.010, and multiply the count")
