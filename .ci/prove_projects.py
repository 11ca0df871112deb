"""Rows of .ci/prove-module about projects of several pages and banks."""

# Page 8 with two banks, and page 9. A source that a row does not name has one word.
PROJECT = """name = "rows"
[page.MAIN]
at = "8"
source = "main.asm"
[page.WORK]
at = "8"
bank = 2
source = "work.asm"
[page.LIB]
at = "9"
source = "lib.asm"
"""
NOTHING = "NOP\n"
BANK_2_OF_9 = """[page.LIB2]
at = "9"
bank = 2
source = "lib2.asm"
"""


def files_of(main: str, work: str = NOTHING, lib: str = NOTHING, lib2: str = "") -> dict[str, str]:
    """Returns the files of a project."""
    return {"module.toml": PROJECT + (BANK_2_OF_9 if lib2 else ""), "main.asm": main, "work.asm": work, "lib.asm": lib, "lib2.asm": lib2}


# A function that goes to bank 2 and adds 1 there.
IN_BANK_2 = "NOP\nC=C+1 S&X\nENBANK1\nNOP\n"
TO_BANK_2 = "%sF: ENBANK2\nNOP\nNOP\nRTN\n"

# Claims that are false, or functions that do not return, with parts of the lines that are printed.
FALSE_PROJECTS: list[tuple[dict[str, str], list[str]]] = [
    # All is right here.
    (files_of(TO_BANK_2 % "; requires C.SX <= 0FFE\n; ensures C.SX = old C.SX + 1, in 4 steps\n", IN_BANK_2), []),
    # The carry of a function of page 9 is lost at 999.
    (files_of("; requires MODE = DEC, C.SX is BCD, BCD(C.SX) <= 3E7\n; ensures BCD(C.SX) = BCD(old C.SX) + 1\nF: ?NC XQ :UP\nRTN\n",
              lib="UP: C=C+1 S&X\nRTN\n"),
     ["main.asm:2: `BCD(C.SX) = BCD(old C.SX) + 1`: false: from C=", "999 MODE=DEC it leaves C=", "the left side is 0, the right side is 3E8"]),
    # The function of page 9 exchanges A and C, and B is never set.
    (files_of("; ensures B.M = old C.M\nF: ?NC XQ :SWAP\nRTN\n", lib="SWAP: A<>C M\nRTN\n"), ["main.asm:1: `B.M = old C.M`: false: from A=", " B="]),
    # The field is doubled until its highest digit is not zero. This ends for all numbers but zero.
    (files_of("; ensures within 63 steps\nF: ?C#0 XS\n?C RTN\n?NC XQ :TWICE\nJNC :F\n", lib="TWICE: C=C+C S&X\nRTN\n"),
     ["main.asm:1: `returns`: false: from ", "000 M=", "it has not returned after 100,000 steps"]),
    # ENBANK1 is missing in bank 2, so that the function returns to words of bank 2.
    (files_of("; ensures C.SX = old C.SX\nF: ?NC XQ :G\nRTN\nNOP\n; ensures C = old C\nG: ENBANK2\n", "NOP\nNOP\nRTN\nNOP\nNOP\nRTN\n"),
     ["main.asm:5: `returns`: false: from C=", "it returns with bank 2 of page 8 active, expected bank 1: put ENBANK1 before RTN, or claim "
      "`BANK = 2`", "main.asm:1: `returns`: false: from C="]),
    # ENBANK1 comes one word too early, so that bank 1 is read instead of the addition.
    (files_of(TO_BANK_2 % "; requires C.SX <= 0FFE\n; ensures C.SX = old C.SX + 1\n", "NOP\nENBANK1\nC=C+1 S&X\nNOP\n"),
     ["main.asm:2: `C.SX = old C.SX + 1`: false: from C="]),
    # A function of bank 2, which the tool calls there, and one that claims another active bank.
    (files_of(NOTHING, "; ensures C.SX = old C.SX + 1\nF: C=C+1 S&X\nRTN\n"),
     ["work.asm:1: `C.SX = old C.SX + 1`: false: from C=", "FFF it leaves C="]),
    (files_of("; ensures BANK = 1\nF: ENBANK2\n", "NOP\nRTN\n"),
     ["main.asm:1: `BANK = 1`: false: from C=", "it returns with bank 2 of page 8 active, expected bank 1\n"]),
    (files_of("; ensures BANK = 2, C = old C, in 2 steps\nF: ENBANK2\n", "NOP\nRTN\n"), []),
]

# Functions of projects that are not proved, with a part of the line that says why.
UNPROVED_PROJECTS = [
    (files_of("; ensures C = C\nF: ?NC GO 9005\n"), "the function continues at 9005 in bank 1, expected an address of an instruction of this "
     "project"),
    (files_of("; ensures C = C\nF: ENBANK3\nRTN\n"), "`ENBANK3`: bank 3 of page 8 has no words, expected a bank of the project"),
    (files_of("; ensures C = C\nF: ENBANK2\n", "NOP\nRTN\n"), "the function returns with bank 2 of page 8 active, expected bank 1: put "
     "ENBANK1 before, or claim `BANK = 2`"),
    (files_of("; ensures BANK = 2\nF: RTN\n"), "`BANK = 2`: the function returns with bank 1 of page 8 active"),
    # A function of page 9 that needs bank 1 of page 8 is called from bank 2.
    (files_of("; ensures C = C\nF: ENBANK2\nH: RTN\n", "NOP\n?NC XQ :G\nENBANK1\n", "; ensures C = C\nG: ?NC XQ :H\nRTN\n"),
     "`?NC XQ 9000`: G requires bank 1 of page 8, but bank 2 is active here"),
    # A round of a loop in page 9 begins in bank 1 of page 8, and leaves bank 2 active.
    (files_of("; ensures within 9 * C.SX + 9 steps\nF: ?NC GO :L\nBACK: ENBANK2\n", "NOP\nNOP\nNOP\n?NC GO :L\n",
              "; decreases C.SX\nL: C=C-1 S&X\n?C RTN\n?NC GO :BACK\n"),
     "the rounds of the loop L begin with different active banks, expected the same one"),
    # Bank 2 of both pages at a time, and a function that leaves another bank of page 9 active.
    (files_of("; ensures C = C\nF: ENBANK2\nRTN\n", "NOP\n?NC XQ :G\nENBANK1\n", "G: ENBANK2\n", "NOP\nRTN\n"),
     "`ENBANK2`: bank 2 of page 8 is active too, expected another active bank in one page at a time: give the function that is called "
     "claims"),
    (files_of("; ensures C = C\nF: ?NC GO :G\n", lib="G: ENBANK2\n", lib2="NOP\nRTN\n"),
     "the function returns with bank 2 of page 9 active, expected bank 1"),
]
