"""Program lines with a data register: their names in the definitions, and what they do to values."""
from __future__ import annotations

import re
from typing import NamedTuple

# The functions, with their names in the definitions.
FUNCTIONS = {"RCL": "Recall", "STO": "Store", "ST+": "StoreAdd", "ST-": "StoreSubtract", "ST*": "StoreMultiply", "ST/": "StoreDivide",
             "X<>": "Exchange", "DSE": "DecrementSkip", "ISG": "IncrementSkip"}
# RCL and STO of the first registers are lines of one byte.
SHORT, SHORT_BELOW = {"RCL": "RecallRegister", "STO": "StoreRegister"}, 16
# The functions that compute with a register and X, with the operation.
INTO = {"ST+": "+", "ST-": "-", "ST*": "*", "ST/": "/"}
# The functions that count, and skip a line at the end of a loop.
COUNTS = ("ISG", "DSE")
# The data registers that a line can name.
MOST_REGISTERS = 100
LINE = re.compile(r"(RCL|STO|ST[-+*/]|X<>|DSE|ISG) (IND )?([0-9]{2})")


class RegisterLine(NamedTuple):
    """A line with a data register: its function, whether it has IND, and the number of the register."""
    function: str
    is_indirect: bool
    number: int

    @property
    def is_short(self) -> bool:
        """Returns whether the line has one byte."""
        return self.function in SHORT and not self.is_indirect and self.number < SHORT_BELOW

    @property
    def operand(self) -> str:
        """Returns the operand as the definitions have it, as an argument."""
        return f"({'Indirect' if self.is_indirect else 'Direct'} {self.number})"

    def term(self) -> str:
        """Returns the line as the definitions have it."""
        if self.is_short:
            return f"lines.Register {SHORT[self.function]} {self.number}"
        return f"lines.WithOperand parameters.{FUNCTIONS[self.function]} {self.operand}"


def register_line(text: str) -> RegisterLine | None:
    """Returns a line with a data register; None if it is another line."""
    found = LINE.fullmatch(text)
    return RegisterLine(found[1], bool(found[2]), int(found[3])) if found else None


def is_count(text: str) -> bool:
    """Returns whether a line counts a loop."""
    found = register_line(text)
    return found is not None and found.function in COUNTS


def needs_counters(text: str) -> bool:
    """Returns whether a line can only be followed with whole numbers and counters."""
    found = register_line(text)
    return text in ("INT", "FRC", "MOD") or is_count(text) or found is not None and found.is_indirect


def registers_in(texts: list[str], is_written: bool = False) -> list[int]:
    """Returns the data registers that lines name, or those that they write."""
    found = [line for line in map(register_line, texts) if line]
    return sorted({line.number for line in found if not is_written or line.function != "RCL" and not line.is_indirect})
