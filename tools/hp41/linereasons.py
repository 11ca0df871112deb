"""Why lines of a program cannot be proved, and what to write instead."""
from __future__ import annotations

import re

GUIDE = "see the supported lines in docs/PROVE-YOUR-MODULE.md"
APART = "put this line outside of the lines with claims, for example after the XEQ that calls them"
STACK = "X, Y, Z, T and L"

# A form of lines, and the reason.
REASONS = [
    (r"[SC]F .*", "the theorem says that the program changes no flag, and a claim cannot name one: keep 0 or 1 in a data register instead, as in "
                  "STO 05, and compare it with X=0?"),
    (r"F[SC]\?C? .*", "a claim cannot name a flag, so it is not known whether it is set: keep 0 or 1 in a data register instead, and compare it "
                      "with X=0?"),
    (r"VIEW .*|AVIEW|PROMPT|CLD", f"claims say nothing about the display: {APART}"),
    (r"\"[^\"]*\"|>\"[^\"]*\"|CLA|ARCL .*|ASTO .*|ASHF|AON|AOFF", f"claims say nothing about ALPHA: {APART}"),
    (r"CLRG", "the theorem names each data register that a line writes, and this line clears all of them: write 0 and then a line such as STO "
              "05 for each register that matters"),
    (r"RND", "its result depends on the number of decimals in the display, which a claim cannot name: claim the number before it is rounded, "
             f"and {APART}"),
    (r"(?:FIX|SCI|ENG) .*|DEG|RAD|GRAD", "the theorem says that the program changes no flag, and this line changes some: put this line outside "
                                         "of the lines with claims, for example before the XEQ that calls them"),
    (r"(?:RCL|STO|X<>|ST[-+*/]|ISG|DSE) (?:IND )?[XYZTL]", f"operands that are registers of the stack, {STACK}, are not supported: use a data "
                                                           "register, as in STO 05"),
    (r"STOP|OFF", "the theorem says that the program returns, and this line ends the run: write RTN"),
]


def reason_of(text: str) -> str:
    """Returns why a line is not supported, and what to write instead if this is known."""
    reason = next((reason for form, reason in REASONS if re.fullmatch(form, text)), "")
    return f"this line is not supported: {reason or GUIDE}"


def has_increment(text: str) -> bool:
    """Returns whether a number line is a counter with an increment, as in 1.01002: with four or five decimals."""
    return bool(re.fullmatch(r"\d+\.\d{4,5}", text))
