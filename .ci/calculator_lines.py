"""How the model of the calculator, calculator.py, executes lines: those that are typed, and those that are stepped."""
import re
from collections.abc import Callable
from decimal import Decimal
from typing import Optional

from calculator_memory import NUMBER, Memory, Place, Refused
from registers import PI, Fault, counted, holds, of_two, of_x, register_text, typed

NOT_IN_PROFILE, MEMORY_LOST = "! 13 NotInProfile", "! 15 MemoryLost"

# The words of functions.
RTN, WRITE_C = "3E0", "368"

# Functions of keys that are not supported.
LEFT_OUT = {"S+", "S-", "Y^X", "LOG", "10^X", "LN", "E^X", "CLS", "SIN", "ASIN", "COS", "ACOS", "TAN", "ATAN", "P-R", "R-P"}

# The functions of the calculator that a name can call, as far as the decks have them.
FUNCTIONS = LEFT_OUT | {"+", "-", "*", "/", "%", "X^2", "SQRT", "1/X", "CHS", "ENTER^", "CLX", "X<>Y", "RDN", "PI", "LASTX",
                        "X=Y?", "X<=Y?", "X>Y?", "X=0?", "CLA", "AVIEW", "BEEP", "RTN", "STOP"}


class Lines(Memory):
    """The execution of lines."""

    def line(self, line: str) -> None:
        """A line is typed: in program mode it is stored, otherwise it is executed at once."""
        if self.program_mode:
            self.text = ""
            if found := re.fullmatch(r'XEQ "(.*)"', line):
                known = self.label(f'"{found[1]}"', 0) is not None
                line = line if known or found[1] not in FUNCTIONS else found[1]
            self.insert(line)
            return
        self.failing(lambda: self.carry_out(line, None), False)

    def failing(self, change: Callable[[], None], stepped: bool) -> None:
        """An error changes only the message and the line 00 flag; if flag 25 is set, only that flag, and execution continues."""
        before = self.copy()
        try:
            change()
        except Fault as error:
            returned = {name: value for name, value in before.__dict__.items()
                        if name in ("stack", "registers", "alpha", "flags", "lift", "at", "returns")}
            self.__dict__.update(returned)
            if stepped:
                self.top = False
            if 25 in self.flags:
                self.flags -= {25}
                if stepped:
                    self.pass_line()
            else:
                self.message = str(error)
                self.mode = "Idle"

    def pass_line(self, count: int = 1) -> None:
        """The position moves past the line, or past this many lines; at .END. it does not move."""
        self.go(min(self.index() + count, len(self.lines) - 1))

    def step(self) -> None:
        """Executes the next word of a function, or the next line of a program."""
        self.number, self.text = None, ""
        if self.mode == "Micro":
            at = int(self.address, 16)
            self.address = f"{at + 1:04X}"
            if self.words[at & 0xFFF] == RTN:
                self.mode, self.address, self.lift = self.caller, "00F0", True
            elif self.words[at & 0xFFF] == WRITE_C:
                self.sound = False
            return
        if not self.sound:
            raise Refused(MEMORY_LOST)
        index = self.index()
        line = self.lines[index]

        def change() -> None:
            """Executes the line."""
            if NUMBER.fullmatch(line):
                self.bring_in(typed("-" if line == "NEG" else line))
                self.lift = True
                self.pass_line()
            elif found := re.fullmatch(r'(>?)"(.*)"', line):
                self.alpha = ((self.alpha if found[1] else "") + found[2])[-24:]
                self.lift = True
                self.pass_line()
            else:
                self.carry_out(".END." if line == "END" else line, index)

        self.failing(change, True)

    def carry_out(self, line: str, index: Optional[int]) -> None:
        """A line is carried out: that of an index, or a typed one without one."""
        if line in LEFT_OUT:
            raise Refused(NOT_IN_PROFILE)
        name, _, operand = line.partition(" ")
        if name in ("RTN", ".END."):
            self.go_return(index)
        elif name == "STOP":
            self.mode = "Idle"
        elif name in ("GTO", "XEQ"):
            self.go_label(name, operand, index)
            return
        elif name != "LBL":
            answer = self.effect(name, operand)
            self.lift = name not in ("ENTER^", "CLX")
            if answer is not None and index is None and name != "ISG":
                self.message = "YES" if answer else "NO"
            if answer is False and index is not None:
                self.pass_line()
        if index is not None and name not in ("RTN", ".END."):
            self.pass_line()

    def go_return(self, index: Optional[int]) -> None:
        """Goes back to the last return address, or to line 00 if there is none."""
        if index is None or not self.returns:
            self.go_top(self.index())
            self.returns = ()
            if index is not None:
                self.mode = "Idle"
        else:
            self.at, self.top = self.returns[-1], False
            self.returns = self.returns[:-1]

    def go_label(self, name: str, operand: str, index: Optional[int]) -> None:
        """GTO or XEQ. A name that is no label may be that of a function."""
        if operand.startswith("IND "):
            value = self.register_value(operand[4:])
            if isinstance(value, str):
                operand = f'"{value}"'
            elif abs(value) >= 100:
                raise Fault("NONEXISTENT")
            else:
                operand = f"{abs(int(value)):02d}"
        following = self.index() if index is None else min(index + 1, len(self.lines) - 1)
        found = self.label(operand, following)
        if found is None:
            function = operand.strip('"')
            if name == "XEQ" and operand.startswith('"') and function in FUNCTIONS:
                self.carry_out(function, index)
                return
            raise Fault("NONEXISTENT")
        if name == "XEQ" and index is None:
            self.mode, self.returns = "Run", ()
        elif name == "XEQ":
            self.returns = (*self.returns, self.places[following])[-6:]
        self.go(found)

    def effect(self, name: str, operand: str) -> Optional[bool]:
        """A line that neither moves nor stops: what it changes, and what it answers if it is a test."""
        stack, x, y = self.stack, self.stack["X"], self.stack["Y"]
        if name in ("STO", "RCL", "VIEW", "ASTO", "ARCL", "ISG") or name.startswith("ST") and operand:
            return self.register_effect(name, self.register_named(operand))
        if name in ("X=Y?", "X<=Y?", "X>Y?", "X=0?"):
            return holds(name, y, x)
        if name in ("SF", "CF", "FS?"):
            return self.flag_effect(name, operand)
        if name in ("FIX", "SCI", "ENG"):
            self.set_format(name, operand)
        elif name in ("+", "-", "*", "/", "%", "X^2", "SQRT", "1/X", "CHS"):
            self.calculate(name)
        elif name == "ENTER^":
            stack.update(T=stack["Z"], Z=y, Y=x)
        elif name == "CLX":
            stack["X"] = Decimal(0)
        elif name == "X<>Y":
            stack.update(X=y, Y=x)
        elif name == "RDN":
            stack.update(T=x, Z=stack["T"], Y=stack["Z"], X=y)
        elif name in ("PI", "LASTX"):
            self.bring_in(PI if name == "PI" else stack["L"])
        elif name == "CLA":
            self.alpha = ""
        elif name == "AON":
            self.flags |= {48}
        elif name == "AVIEW":
            self.message = self.alpha
        elif name != "BEEP":
            raise ValueError(name)
        return None

    def calculate(self, name: str) -> None:
        """A line that calculates with X, or with Y and X."""
        stack, x, y = self.stack, self.stack["X"], self.stack["Y"]
        if name in ("+", "-", "*", "/"):
            result = of_two(name, y, x, self.flags)
            stack.update(X=result, Y=stack["Z"], Z=stack["T"], L=x)
        elif name == "%":
            stack.update(X=of_two(name, y, x, self.flags), L=x)
        elif name == "CHS":
            stack["X"] = of_x(name, x, self.flags)
        else:
            stack.update(X=of_x(name, x, self.flags), L=x)

    def flag_effect(self, name: str, operand: str) -> Optional[bool]:
        """SF, CF or FS?, and what FS? answers."""
        flag = self.number_of(operand, 56 if name == "FS?" else 30)
        if name == "FS?":
            return flag in self.flags
        self.flags = self.flags | {flag} if name == "SF" else self.flags - {flag}
        return None

    def set_format(self, name: str, operand: str) -> None:
        """FIX, SCI or ENG."""
        try:
            digits = self.number_of(operand, 10)
        except Fault as error:
            raise Fault("DATA ERROR" if str(error) == "NONEXISTENT" else str(error)) from error
        self.flags = (self.flags - {36, 37, 38, 39, 40, 41}) | {36 + bit for bit in range(4) if digits & 8 >> bit}
        self.flags |= {40} if name == "FIX" else {41} if name == "ENG" else set()

    def register_effect(self, name: str, place: Place) -> Optional[bool]:
        """A line with a register: what it changes, and what ISG answers."""
        value = self.register_value(place)
        if name == "STO":
            self.put(place, self.stack["X"])
        elif name == "RCL":
            self.bring_in(value)
        elif name == "VIEW":
            self.message = register_text(value, self.flags)
        elif name == "ASTO":
            self.put(place, self.alpha[:6])
        elif name == "ARCL":
            self.alpha = (self.alpha + register_text(value, self.flags))[-24:]
        elif name == "ISG":
            changed, skips = counted(value)
            self.put(place, changed)
            return not skips
        else:
            self.put(place, of_two(name[2], value, self.stack["X"], self.flags))
        return None
