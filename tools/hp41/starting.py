"""A new project for tools/module: a folder with a module of two pages, and tests."""
import os

from .decks import Failure
from .projects import IN_A_FOLDER

PROJECT = '''\
# A module of two pages. Names of files are relative to this folder.
name = "{name}"
tests = ["main.cases"]

[equates]
X = 3               # register X of the stack, for READ and WRIT

[page.MAIN]
at = "8"
source = "main.asm"

[page.LIB]
at = "9"
source = "lib.asm"
'''

MAIN = '''\
; The module's table and its functions. Their subroutines are in LIB.
        CON 00B         ; module 11
        CON 001         ; one function
        ENTRY :X100
        CON 000
        CON 000

        NAME "X100"     ; multiplies X by 100
X100:   C=0 ALL
        RAM SLCT        ; the registers from 000 on
        ?NC XQ :X10
        ?NC GO :X10
'''

LIB = '''\
; Subroutines.
X10:    READ :X         ; multiplies X by 10
        ?C#0 M
        ?NC RTN         ; zero stays zero
        SETDEC          ; exponents count in base 10
        C=C+1 S&X
        SETHEX
        WRIT :X
        RTN
'''

CASES = '''\
# A case in each row: what is called, what is set before, and what is wanted after.
X100  X=5 Y=2 -> X=500 Y=2 MODE=HEX
X100  X=0 -> X=0                        # zero stays zero
X10   RAM=000 X=-0.07 -> X=-0.7
"X100" keys="1 ENTER 2" -> X=200 Y=1    # by its name, from the keyboard
'''


def new(folder: str) -> int:
    """Makes the folder with its files."""
    try:
        os.mkdir(folder)
    except FileExistsError as error:
        raise Failure(f"{folder}: it exists already: choose another name") from error
    except OSError as error:
        raise Failure(f"{folder}: cannot be made: {error.strerror}", 3) from error
    name = os.path.basename(os.path.realpath(folder)).replace("\\", "").replace('"', "")
    for file, text in ((IN_A_FOLDER, PROJECT.format(name=name)), ("main.asm", MAIN), ("lib.asm", LIB), ("main.cases", CASES)):
        with open(os.path.join(folder, file), "w", encoding="utf-8") as written:
            written.write(text)
    print(f"{folder}: a new project: test it with tools/module test {folder}")
    return 0
