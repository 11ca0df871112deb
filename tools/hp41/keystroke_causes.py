"""Causes of source lines that are lines of keystroke programs, which the processor does not execute. Only errors need this module."""
from __future__ import annotations

import re

from .arithmetic import OF_ONE, OF_TWO
from .line_causes import ELSEWHERE, NUMBERS, Cause

NAME = re.compile(r"[A-Za-z]\w{0,11}")

# Functions of programs that are no instructions, in any dialect.
FUNCTIONS = set("""X<Y? X>Y? X<=Y? X>0? X<=0? X=Y? X#Y? X<>Y? X#0? X<>0? X<0? X=0? S+ S- HMS+ HMS- %CH P-R R-P X^2 SQRT Y^X CHS E^X 10^X
E^X-1 1/X FACT LN1+X FRC D-R R-D HMS RND CLS X<>Y CLST R^ RDN LASTX CLX MEAN SDEV AVIEW RAD GRAD ENTER^ ENTER BEEP CLA ASHF PSE CLRG AOFF
AON PROMPT ADV RCL STO ST+ ST- ST* ST/ STO+ STO- STO* STO/ ISG DSE VIEW SREG ASTO ARCL FIX SCI ENG TONE X<> GTO LBL""".split())

# What does the same here.
HERE = {
    "X=0?": "READ 3, ?C#0 M and JNC, which jumps if X is 0", "X#0?": "READ 3, ?C#0 M and JC, which jumps if X is not 0",
    "X<>0?": "READ 3, ?C#0 M and JC, which jumps if X is not 0", "X<0?": "READ 3, ?C#0 MS and JC, which jumps if X is below 0",
    "CLX": "C=0 ALL and WRIT 3", "X<>Y": "READ 3, A<>C ALL, READ 2, WRIT 3, A<>C ALL and WRIT 2",
}


def of_label(name: str) -> str:
    """Returns the name that a label of a program has here: a number gets a letter before it. An empty text if it cannot have one."""
    return name if NAME.fullmatch(name) else f"L{name}" if re.fullmatch(r"\d{1,3}", name) else ""


def of_memory(name: str, operand: str) -> str:
    """Returns what does the same as STO or RCL; an empty text if the operand does not show it."""
    own, more = ("WRIT", "") if name == "STO" else ("READ", "; RCR rotates C")
    if operand.upper() in NUMBERS or re.fullmatch(r":\w+", operand):
        return f"{own} {NUMBERS.get(operand.upper(), operand)}"
    if re.fullmatch(r"\d{1,3}", operand):
        return f"the address of R{operand:0>2} in C, RAM SLCT and then {own} DATA{more}"
    return f"{own} for a register of memory{more}"


def here(name: str, operand: str) -> str:
    """Returns what does the same as a line of a program; an empty text if that is not a few instructions."""
    label = of_label(operand.strip('":'))
    if name == "GTO":
        return f"JNC :{label} for a short jump, and ?NC GO :{label} for a long one" if label else ""
    return of_memory(name, operand) if name in ("STO", "RCL") else HERE.get(name, "")


def cause_of(words: list[tuple[int, str]]) -> Cause | None:
    """Returns the column and the cause for a line of a program in a source; None if it is no such line. `words` have their columns."""
    column, first = words[0]
    name, operand = first.upper(), words[1][1] if words[1:] else ""
    label = of_label(operand.strip('":'))
    if name.lstrip(".") in ("LBL", "LABEL") and len(words) == 2 and label:
        return column, f"a label is its name and a colon, as the first word of its line: write {label}:"
    if name not in FUNCTIONS or name in ELSEWHERE or name in OF_ONE or name in OF_TWO or operand[:1] == ":" and name == "ENTER":
        return None
    way = here(name, operand)
    return column, f"{first} is a function of programs" + (f": here it is {way}" if way else
                                                           ", and a source has instructions of the processor: tools/import reads program "
                                                           "lines from a file of their own")
