"""Foresees errors of program lines and refusals of instructions from what can be seen before the step: operands, the kinds and signs of
values, labels, plugged pages. No result is computed: only the bench says whether one is out of range."""
from __future__ import annotations

import re
from decimal import Decimal, InvalidOperation
from typing import TYPE_CHECKING, NamedTuple, Optional, Sequence

from .memory import MAIN_START, STATUS
from .values import MOST_DIGITS

if TYPE_CHECKING:
    from .explaining import Explained

IND = "IND "
# The operand of a line that names a register of the stack is one of these numbers if the line needs another kind of number.
STACK_NUMBERS = {"T": 112, "Z": 113, "Y": 114, "X": 115, "L": 116}
# A result can only be out of range if the exponent of a value that it is made of has at least this absolute value.
LEAST_EXPONENT = 49
MEMORY_END, END_OF_FUNCTION, FIRST_PAGE, ADDRESS_END = 0x200, 0x00F0, 0x4000, 0x10000
# How the instructions with two words begin.
TWO_WORDS = ("LDI ", "?NC XQ", "?C XQ", "?NC GO", "?C GO")
# After a line that begins from here on, the next line may be in the next page.
LAST_LINES = "FF0"


class Error(NamedTuple):
    """The message of an error with its cause, or the name and number of a refusal with its cause."""
    message: str
    cause: str


def register(operand: str) -> str:
    """Returns the name of a register of an operand."""
    return {"L": "LAST X"}.get(operand, operand) if not operand.isdigit() else f"R{operand}"


def shortly(number: int) -> str:
    """Returns a number with at least two digits for a sentence. Of more than ten digits it has the first and the last ones."""
    digits = f"{number:02}"
    return digits if len(digits) <= MOST_DIGITS else f"{digits[:3]}…{digits[-3:]} ({len(digits)} digits)"


class Around(NamedTuple):
    """What is around a step, besides the values of registers. None means that it is not known.

    `size` is the number of data registers, `program` has the lines of the program at the position and `lines` those of all programs in
    memory, `functions` are the lines of `show functions`, `pages` are the plugged pages, of which `writable` and `protected` are known to
    have only such banks, and `top` is the address after the last register of memory. `after` is the line that a test would skip; an empty
    text if the bytes there are no line."""
    size: Optional[int] = None
    program: Optional[Sequence[str]] = None
    lines: Optional[Sequence[str]] = None
    functions: Optional[Sequence[str]] = None
    pages: Optional[Sequence[str]] = None
    writable: Sequence[str] = ()
    protected: Sequence[str] = ()
    top: Optional[int] = None
    after: Optional[str] = None


def number_in(value: str) -> Optional[Decimal]:
    """Returns the number in the text of a register; None if it contains no number."""
    try:
        return None if value[:1] in ('"', "=") else Decimal(value)
    except InvalidOperation:
        return None


def program_at(lines: Sequence[tuple[str, str]], place: str) -> list[str]:
    """Returns the lines of the program to which a position belongs, its END included. Each line is given by its position and its text."""
    ends = [at for at, text in lines if text in ("END", ".END.")]
    end = next((at for at in ends if at >= place), None)
    begin = next((at for at in reversed(ends) if at < place), "")
    return [text for at, text in lines if at > begin and (end is None or at <= end)]


def program_in_page(rows: Sequence[Sequence[str]], place: str) -> Optional[list[str]]:
    """Returns the lines of a page among which a line at a position finds its local labels; None if they are not known. Each row has a
    position, a text and the number of the line in its program. If the bytes after the line are no line, no label before it is found."""
    first = max((at for at, row in enumerate(rows) if row[2] == "01" and row[0] <= place), default=0)
    after = next((at for at, row in enumerate(rows) if at > first and row[2] == "01"), len(rows))
    program = [row for row in rows[first:after]]
    if program and program[-1][0] == place and program[-1][1] not in ("END", ".END."):
        return [] if place[1:] < LAST_LINES else None
    return [text for _, text, *_ in program]


class Foreseen:
    """The checks of a program line or an instruction. Each returns the error or the refusal, or None if there is none, or if this is not
    known."""

    def __init__(self, one: Explained, around: Around) -> None:
        """Takes the line or instruction with the values before its step."""
        self.one, self.around = one, around
        groups = one.found.groupdict() if one.found else {}
        self.operand: str = groups.get("R") or ""
        # If only the bench knows whether the result is in range: the line, in which R00 replaces a data register, and this register.
        self.unsure: Optional[tuple[str, str]] = None

    def error(self) -> Optional[Error]:
        """Returns the error or the refusal of the first check that fails."""
        for check in self.one.row.checks if self.one.row else []:
            name, _, what = check.partition(" ")
            found: Optional[Error] = getattr(self, f"check_{name}")(what)
            if found:
                return found
        return self.going_on() if self.one.is_word else None

    # What checks of lines need.

    def above(self, message: str, number: Optional[int], most: int, what: str = "") -> Optional[Error]:
        """Returns the error for an operand that is above the greatest one; `what` is what it numbers."""
        if number is None or number <= most:
            return None
        named = str(number) if number < 10 else shortly(number)
        cause = f"{self.operand} means {named} here, which is" if self.operand in STACK_NUMBERS else f"{what}{named} is"
        return Error(message, f"{cause} above {most}")

    def absent(self, number: int) -> Optional[Error]:
        """Returns the error for a data register that does not exist."""
        size = self.around.size
        return Error("NONEXISTENT", f"there is no R{shortly(number)} with SIZE {size}") if size is not None and number >= size else None

    def meant(self) -> tuple[Optional[int], Optional[Error]]:
        """Returns the number that the operand means, and the error of finding it by IND."""
        if not self.operand.startswith(IND):
            return int(self.operand) if self.operand.isdigit() else STACK_NUMBERS[self.operand], None
        name = self.operand[len(IND):]
        error = self.absent(int(name)) if name.isdigit() else None
        value = self.one.values.get(register(name))
        if error or value is None:
            return None, error
        number = number_in(value)
        if number is None:
            return None, not_a_number(register(name))
        return int(abs(number)), None

    def target(self) -> str:
        """Returns the name of the register that the operand means; an empty text if it is not known."""
        if self.operand.startswith(IND):
            number, _ = self.meant()
            return "" if number is None else f"R{number:02}"
        return register(self.operand)

    def value(self, what: str) -> Optional[str]:
        """Returns the value of X or Y, or for `R` that of the operand's register."""
        return self.one.values.get(self.target() if what == "R" else what)

    # The checks of lines.

    def check_register(self, _: str) -> Optional[Error]:
        """Fails if the operand means no register."""
        if self.operand in STACK_NUMBERS:
            return None
        number, error = self.meant()
        return error or (None if number is None else self.absent(number))

    def check_flag(self, most: str) -> Optional[Error]:
        """Fails if the operand is above the greatest flag."""
        number, error = self.meant()
        return error or self.above("NONEXISTENT", number, int(most), "flag ")

    def check_digits(self, _: str) -> Optional[Error]:
        """Fails if the operand is above 9."""
        number, error = self.meant()
        return error or self.above("DATA ERROR", number, 9)

    def check_number(self, what: str) -> Optional[Error]:
        """Fails if a register does not contain a number."""
        value = self.value(what)
        return not_a_number(self.target() if what == "R" else what) if value is not None and number_in(value) is None else None

    def check_nonzero(self, what: str) -> Optional[Error]:
        """Fails if a number is zero."""
        return Error("DATA ERROR", f"{what} is zero") if number_in(self.value(what) or "1") == 0 else None

    def check_nonnegative(self, what: str) -> Optional[Error]:
        """Fails if a number is negative."""
        return Error("DATA ERROR", f"{what} is negative") if (self.value(what) or "").startswith("-") else None

    def check_range(self, _: str) -> Optional[Error]:
        """Fails if the bench has said that the result is out of range. Only a very great or a very small number needs to be asked for, and
        only if flag 24 is clear."""
        checks = self.one.row.checks if self.one.row else []
        numbers = [number_in(self.value(check.partition(" ")[2]) or "") for check in checks if check.startswith("number ")]
        exponents = [abs(number.adjusted()) for number in numbers if number]
        if "24" in self.one.values.get("flags", "").split() or max(exponents, default=0) < LEAST_EXPONENT:
            return None
        if self.one.is_over is None:
            name = self.target() if self.operand not in STACK_NUMBERS else ""
            self.unsure = f"{self.one.text.split()[0]} 00" if name else self.one.text, name
        return Error("OUT OF RANGE", "the result is above 9.999999999E99, or below -9.999999999E99") if self.one.is_over else None

    def check_label(self, _: str) -> Optional[Error]:
        """Fails if there is no such label, and for XEQ no such function either."""
        label = self.one.group(1)
        if self.operand:
            # The pattern of these lines has the IND.
            name = register(self.operand)
            error = self.absent(int(name[1:])) if name[1:].isdigit() else None
            value = self.one.values.get(name)
            if error or value is None:
                return error
            if value.startswith("="):
                return Error("ALPHA DATA", f"{name} contains neither a number nor a text")
            number = number_in(value)
            if number is not None and abs(number) >= 100:
                return Error("NONEXISTENT", f"label {shortly(int(abs(number)))} is above 99")
            label = value if number is None else f"{int(abs(number)):02}"
        if label.startswith('"'):
            return self.unnamed(label)
        has_label = self.around.program is None or f"LBL {label}" in self.around.program
        return None if has_label else Error("NONEXISTENT", f"the program has no LBL {label}")

    def unnamed(self, name: str) -> Optional[Error]:
        """Returns the error if there is no label of a name in memory, and for XEQ no function either; or the error of the function."""
        if self.around.lines is None or f"LBL {name}" in self.around.lines:
            return None
        if not self.one.text.startswith("XEQ"):
            return Error("NONEXISTENT", f"there is no label {name} in memory")
        if any(line[11:] == name[1:-1] for line in self.around.functions or []):
            return None
        inner = self.one.function(name[1:-1])
        if inner is None:
            return Error("NONEXISTENT", f"there is no label or function {name}")
        if inner.is_refused():
            return Error("NotInProfile (13)", f"{inner.text} is not supported")
        error = inner.error()
        self.unsure = inner.unsure
        return error

    def check_function(self, _: str) -> Optional[Error]:
        """Fails if no plugged module has a function."""
        numbers, functions = self.one.group(1), self.around.functions
        is_known = functions is None or any(line[5:10] == numbers for line in functions)
        return None if is_known else Error("NONEXISTENT", f"no plugged module has the function {numbers}")

    # The checks of instructions.

    def of_system(self, address: int) -> Optional[Error]:
        """Returns the refusal of an address in the calculator's own pages."""
        is_refused = address < FIRST_PAGE and address != END_OF_FUNCTION
        return Error("SystemRom (08)", f"{address:04X} is in pages 0 to 3, HP's own ROM") if is_refused else None

    def is_taken(self) -> bool:
        """Returns whether a conditional jump is taken. Without a condition it is."""
        return self.one.found is None or not self.one.found.re.groups or self.one.part_taken() == "it does"

    def going_on(self) -> Optional[Error]:
        """Returns the refusal of an instruction that goes on from the last word of the address space, after which 0000 follows."""
        place, row = self.one.values.get("PC"), self.one.row
        if place is None or row is None or "REFUSED" in row.changes or "GOES" in row.changes and self.is_taken():
            return None
        after = int(place, 16) + (2 if self.one.text.startswith(TWO_WORDS) else 1)
        return Error("SystemRom (08)", "the next word is at 0000, in pages 0 to 3, HP's own ROM") if after == ADDRESS_END else None

    def check_target(self, _: str) -> Optional[Error]:
        """Fails if a long jump that is taken leads to the calculator's own pages."""
        return self.of_system(int(self.one.group(2), 16)) if self.is_taken() else None

    def check_jump(self, _: str) -> Optional[Error]:
        """Fails if a short jump that is taken leads there."""
        place = self.one.values.get("PC")
        if place is None or not self.is_taken():
            return None
        return self.of_system(int(place, 16) + int(self.one.group(2) + self.one.group(3), 16) & 0xFFFF)

    def check_return(self, _: str) -> Optional[Error]:
        """Fails if a return that is taken leads there, for example because there is no return address."""
        address = self.one.part_return()
        return None if address == "?" or not self.is_taken() else self.of_system(int(address, 16))

    def check_address(self, _: str) -> Optional[Error]:
        """Fails if the address in C is there."""
        return self.of_system(int(self.one.value("C.6-3"), 16))

    def check_fetch(self, _: str) -> Optional[Error]:
        """Fails if the address in C is there, even if it is 00F0."""
        address = self.one.value("C.6-3")
        return Error("SystemRom (08)", f"{address} is in pages 0 to 3, HP's own ROM") if address < f"{FIRST_PAGE:04X}" else None

    def check_write(self, _: str) -> Optional[Error]:
        """Fails if the page of the address in C is known to be read-only."""
        page, pages = self.one.value("C.6-3")[:1], self.around.pages
        if page < "4":
            return Error("ReadOnly (12)", f"page {page} is HP's own ROM")
        if pages is not None and page not in pages:
            return Error("ReadOnly (12)", f"no module is plugged at page {page}")
        return Error("ReadOnly (12)", f"page {page} is plugged without rw") if page in self.around.protected else None

    def check_peripheral(self, _: str) -> Optional[Error]:
        """Fails if a peripheral is selected."""
        number = self.one.value("C.1-0")
        return Error("PeripheralNotHeld (10)", f"peripheral {number} is not supported") if number != "00" else None

    # Remarks on what does not exist, and is not refused.

    def has_register(self, address: int) -> bool:
        """Returns whether there is a register of memory at an address."""
        return address < STATUS or MAIN_START <= address < (self.around.top or MEMORY_END)

    def selected(self) -> int:
        """Returns the address that a word reads or writes."""
        address = int(self.one.values.get("RAM", "0"), 16)
        number = re.search("[0-9]+$", self.one.text)
        return address & ~0xF | int(number[0]) if number else address

    def is_unplugged(self) -> bool:
        """Returns whether no page is plugged at the address in C."""
        pages = self.around.pages
        return pages is not None and self.one.value("C.6-3")[:1] not in pages


def not_a_number(name: str) -> Error:
    """Returns the error for a register that contains no number."""
    return Error("ALPHA DATA", f"{name} is not a number")
