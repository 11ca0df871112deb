"""The memory of the model of the calculator, calculator.py: its stack, registers, flags and ALPHA, and the lines of its programs."""
import re
from collections.abc import Callable
from decimal import Decimal
from typing import Any, Optional, TypeVar, Union

from registers import Fault, Register, number

NO_ROOM = "! 16 NoRoom"

# A number line.
NUMBER = re.compile(r"NEG|(?=.*[0-9.])[-0-9.E]+")


class Refused(Exception):
    """A refusal's line."""


def length(line: str) -> int:
    """How many bytes a line has, in its shortest spelling."""
    if NUMBER.fullmatch(line):
        return 1 if line == "NEG" else len(line)
    if found := re.fullmatch(r'(>?)"(.*)"', line):
        return 1 + len(found[1]) + len(found[2])
    if found := re.fullmatch(r'(LBL|GTO|XEQ) "(.*)"', line):
        return len(found[2]) + (4 if found[1] == "LBL" else 2)
    name, _, operand = line.partition(" ")
    if line in ("END", ".END."):
        return 3
    if not operand:
        return 1
    if name in ("GTO", "XEQ") and not operand.startswith("IND"):
        return 2 if name == "GTO" and operand.isdigit() and int(operand) < 15 else 3
    short = {"LBL": 15, "RCL": 16, "STO": 16}.get(name, 0)
    return 1 if operand.isdigit() and int(operand) < short else 2


Place = Union[str, int]
Self = TypeVar("Self", bound="Memory")


class Memory:
    """The stack, the registers and the lines in memory."""

    def __init__(self) -> None:
        """Begins with an empty calculator."""
        self.stack: dict[str, Register] = dict.fromkeys("TZYXL", Decimal(0))
        self.registers: dict[int, Register] = {}
        self.alpha = ""
        self.flags = frozenset({26, 28, 29, 37, 40})
        self.lift = True
        self.lines = [".END."]
        self.places = [4]
        self.at, self.top = 0, True
        self.returns: tuple[int, ...] = ()
        self.size, self.sound = 100, True
        self.mode, self.caller, self.address = "Idle", "Idle", "00F0"
        self.words: list[str] = []
        self.shift = self.program_mode = False
        self.message: Optional[str] = None
        # What is being typed: a number as its characters, None if there is none; a text, "" if there is none, "letters" after a letter,
        # "append" after SHIFT XEQ.
        self.number: Optional[str] = None
        self.text = ""
        # The function that waits for its parameter, and what is typed of it.
        self.waiting: Optional[str] = None
        self.indirect, self.digits, self.point = False, "", False
        self.name: Optional[str] = None
        self.code, self.pressed = 0, 0

    def copy(self: Self) -> Self:
        """Returns a copy, which shares nothing that changes."""
        new = type(self).__new__(type(self))
        new.__dict__.update(self.__dict__)
        new.stack, new.registers, new.lines, new.places = (dict(self.stack), dict(self.registers), list(self.lines),
                                                           list(self.places))
        return new

    def attempt(self, change: Callable[..., None], *words: Any) -> None:
        """What is refused changes nothing."""
        after = self.copy()
        change(after, *words)
        self.__dict__ = after.__dict__

    # ---- Lines in memory

    def pack(self) -> None:
        """The address of each line: there is a null between two numbers, and .END. ends its register."""
        at, before, self.places = 0, "", []
        for line in self.lines[:-1]:
            at += bool(NUMBER.fullmatch(before) and NUMBER.fullmatch(line))
            self.places.append(at)
            at, before = at + length(line), line
        self.places.append(at + (4 - at) % 7)

    def index(self) -> int:
        """The line that the position stands for: the first from there on."""
        return next(index for index, place in enumerate(self.places) if place >= self.at)

    def first(self, index: int) -> int:
        """The first line of a line's program."""
        return max((each + 1 for each in range(index) if self.lines[each] == "END"), default=0)

    def last(self, index: int) -> int:
        """The END of a line's program."""
        return next(each for each in range(index, len(self.lines)) if self.lines[each] in ("END", ".END."))

    def start(self, index: int) -> int:
        """Returns the place at which a line's program begins."""
        first = self.first(index)
        return self.places[first - 1] + 3 if first else 0

    def free(self) -> int:
        """How many registers are free below .END. ."""
        return 319 - self.size - self.places[-1] // 7

    def go_top(self, index: int) -> None:
        """Goes to line 00 of a line's program."""
        self.at, self.top = self.start(index), True

    def go(self, index: int) -> None:
        """Goes to a line."""
        self.at, self.top = self.places[index], False

    def changed(self, lines: list[str], index: int) -> None:
        """The lines are others, and one of them is shown."""
        self.lines = lines
        self.pack()
        if self.free() < 0:
            raise Refused(NO_ROOM)
        self.returns = ()
        self.go(index)

    def insert(self, line: str) -> None:
        """Inserts a line after the one that is shown."""
        index = self.index()
        place = self.first(index) if self.top else index + (self.lines[index] not in ("END", ".END."))
        self.changed(self.lines[:place] + [line] + self.lines[place:], place)

    def replace(self, line: str) -> None:
        """Replaces the line that is shown."""
        index = self.index()
        self.changed(self.lines[:index] + [line] + self.lines[index + 1:], index)

    def delete(self) -> None:
        """Deletes the line that is shown. Line 00 and .END. stay."""
        index = self.index()
        if self.top or self.lines[index] == ".END.":
            return
        first = self.first(index)
        self.changed(self.lines[:index] + self.lines[index + 1:], max(index - 1, 0))
        if index == first:
            self.go_top(index)

    def label(self, operand: str, behind: int) -> Optional[int]:
        """The line of a label: of a name the last in memory, else the first from a line on, or from the program's start."""
        wanted = f"LBL {operand}"
        if operand.startswith('"'):
            found = [index for index, line in enumerate(self.lines) if line == wanted][-1:]
        else:
            first = self.first(behind)
            found = [index for index in [*range(behind, self.last(behind)), *range(first, self.last(first))]
                     if self.lines[index] == wanted]
        return found[0] if found else None

    # ---- Registers

    def bring_in(self, value: Register) -> None:
        """Writes a value to X, after lifting the stack if stack lift is on."""
        if self.lift:
            self.stack.update(T=self.stack["Z"], Z=self.stack["Y"], Y=self.stack["X"])
        self.stack["X"] = value

    def register_value(self, operand: Place) -> Register:
        """Returns the value of a register."""
        if isinstance(operand, str) and operand in self.stack:
            return self.stack[operand]
        if int(operand) >= self.size:
            raise Fault("NONEXISTENT")
        return self.registers.get(int(operand), Decimal(0))

    def number_of(self, operand: str, bound: int) -> int:
        """The number that an operand stands for, below a bound."""
        if operand.startswith("IND "):
            found = abs(int(number(self.register_value(operand[4:]))))
        else:
            found = {"T": 112, "Z": 113, "Y": 114, "X": 115, "L": 116}.get(operand) or int(operand)
        if found >= bound:
            raise Fault("NONEXISTENT")
        return found

    def register_named(self, operand: str) -> Place:
        """Returns the register that an operand names."""
        return operand if operand in self.stack else self.number_of(operand, self.size)

    def put(self, place: Place, value: Register) -> None:
        """Writes a value to a register."""
        if isinstance(place, str):
            self.stack[place] = value
        else:
            self.registers[place] = value
