"""Program lines as the definitions of the libraries have them, and what the lines of a program do to values."""
from __future__ import annotations

import re
from typing import NamedTuple

from .lineregisters import register_line

# Functions of one byte, with their names in the definitions.
PLAIN = {"+": "Add", "-": "Subtract", "*": "Multiply", "/": "Divide", "X^2": "Square", "CHS": "ChangeSign", "ABS": "AbsoluteValue",
         "SQRT": "SquareRoot", "1/X": "Reciprocal", "INT": "IntegerPart", "FRC": "FractionPart", "MOD": "Modulo", "CLST": "ClearStack",
         "PI": "Pi", "SIGN": "Signum", "BEEP": "Beep", "PSE": "Pause", "ADV": "Advance",
         "X<>Y": "ExchangeXY", "RDN": "RollDown", "R^": "RollUp", "LASTX": "LastX", "CLX": "ClearX", "ENTER^": "Enter", "RTN": "Return",
         "X<Y?": "TestXLessThanY", "X>Y?": "TestXGreaterThanY", "X<=Y?": "TestXAtMostY", "X=Y?": "TestXEqualsY",
         "X#Y?": "TestXDiffersFromY", "X=0?": "TestXZero", "X#0?": "TestXNotZero", "X>0?": "TestXPositive", "X<0?": "TestXNegative",
         "X<=0?": "TestXAtMostZero"}
CHARACTERS = dict(zip("0123456789.E-", ("Zero", "One", "Two", "Three", "Four", "Five", "Six", "Seven", "Eight", "Nine", "Point",
                                        "Exponent", "Minus")))
NAMED = re.compile(r'LBL "([ !#-\[\]-~]*)"')
LOCAL = re.compile("LBL (0[0-9]|1[0-4])")
GO_TO = re.compile("GTO (0[0-9]|1[0-4])")
CALL = re.compile("XEQ (0[0-9]|1[0-4])")
CALL_NAMED = re.compile(r'XEQ "([ !#-\[\]-~]*)"')
GO_TO_NAMED = re.compile(r'GTO "([ !#-\[\]-~]*)"')
# Functions that have no effect in the bench, except that they turn stack lift on.
SILENT = ("BEEP", "PSE", "ADV")
NUMBER = re.compile("(?!-$)[-0-9.E]+")
TEST = re.compile(r"X(?:<|>|<=|=|#)[Y0]\?")
LABEL = re.compile('LBL ".*"')
# In the name of a variable, if it is a truth value.
TRUTH = "backwards_"


class ProgramLine(NamedTuple):
    """A line of a program: its text as the bench prints it, the number of its line in the file, its bytes, and their place in those of the
    file."""
    text: str
    number: int
    spelled: bytes
    place: int


def characters_of(text: str) -> str:
    """Returns the characters of a number line."""
    return "(" + "".join(f"characters.{CHARACTERS[one]} ∷ " for one in text) + "[])"


def term_of(text: str, index: int) -> str | None:
    """Returns a line as the definitions have it; None if it is not supported. The names of links and status bits have the index of the
    line."""
    named, local, register = NAMED.fullmatch(text), LOCAL.fullmatch(text), register_line(text)
    if named:
        return f'lines.GlobalLabel link_{index} key_{index} (codes "{named[1]}")'
    if local:
        return f"lines.LocalLabel {int(local[1])}"
    if register:
        return register.term()
    if GO_TO.fullmatch(text):
        return f"lines.ShortGoTo {int(text[4:])} distance_{index}"
    if CALL.fullmatch(text):
        return f"lines.BranchTo Execute distance_{index} backwards_{index} {int(text[4:])}"
    for form, name in ((CALL_NAMED, "ExecuteName"), (GO_TO_NAMED, "GoToName")):
        found = form.fullmatch(text)
        if found:
            return f'lines.Named {name} (codes "{found[1]}")'
    if text in PLAIN:
        return f"lines.Plain functions.{PLAIN[text]}"
    if text == "END":
        return f"lines.End link_{index} marks_{index}"
    return f"lines.Number {characters_of(text)}" if NUMBER.fullmatch(text) else None


def unknowns_of(text: str, index: int) -> list[str]:
    """Returns the names of the links, distances and status bits of a line. Each is a number, except whether XEQ leads back."""
    if NAMED.fullmatch(text):
        return [f"link_{index}", f"key_{index}"]
    if GO_TO.fullmatch(text):
        return [f"distance_{index}"]
    if CALL.fullmatch(text):
        return [f"distance_{index}", f"backwards_{index}"]
    return [f"link_{index}", f"marks_{index}"] if text == "END" else []


def kinds_of(names: list[str]) -> str:
    """Returns the links, distances and status bits with their types."""
    numbers, truths = [one for one in names if TRUTH not in one], [one for one in names if TRUTH in one]
    return " ".join([*([f"({' '.join(numbers)} : ℕ)"] if numbers else []), *([f"({' '.join(truths)} : Bool)"] if truths else [])])


def values_of(line: ProgramLine) -> list[int | str]:
    """Returns the values of the links, distances and status bits in the bytes of a line."""
    data = line.spelled
    if not unknowns_of(line.text, 0):
        return []
    if GO_TO.fullmatch(line.text):
        return [data[1]]
    if CALL.fullmatch(line.text):
        return [(data[0] - 0xE0) * 256 + data[1], "true" if data[2] >= 0x80 else "false"]
    link = (data[0] - 0xC0) * 256 + data[1]
    return [link, data[2] // 64 * 32 + data[2] % 32 if line.text == "END" else data[3]]
