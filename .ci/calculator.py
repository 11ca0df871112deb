"""A model of the calculator as far as keys reach: which of them are refused in which state, and what the others do. It is
written by docs/KEYBOARD.md, docs/LINES.md and docs/PROGRAMS.md and shares nothing with the crates. It takes the commands of a
deck and answers the lines that the program has to print for them: `.ci/keys` compares the two.

Of decks it knows `reset`, `size` and then one `program` block, `key`, `step`, `call` of a function that has NOP, RTN and a word
that clears register c, so that memory is not sound, and the views that the decks of `.ci/keys` have.
"""
from decimal import Decimal
from typing import Optional, Union

from judging import sure

from calculator_lines import MEMORY_LOST, Lines
from calculator_memory import Refused, length
from hp41.keyboard import KEYS, Key
from registers import register_digits, register_text, typed

KEY_NOT_HELD = "! 18 KeyNotHeld"

DIGITS = set("0123456789")
# What SHIFT writes in ALPHA and in a name.
WRITTEN = DIGITS | set("+-*/.")
# The stack, whose registers are named by the keys with these letters.
STACK = tuple("TZYXL")

# The functions that wait for a parameter: how many digits, whether the stack is named without IND, whether a name is taken.
WAITING = {name: (2, True, False) for name in ("STO", "RCL", "ISG", "VIEW", "ASTO", "ARCL", "ST+", "ST-", "ST*", "ST/")}
WAITING |= {name: (2, False, False) for name in ("SF", "CF", "FS?")}
WAITING |= {name: (1, False, False) for name in ("FIX", "SCI", "ENG")}
WAITING |= {name: (2, False, True) for name in ("GTO", "XEQ", "LBL")}

# Lines whose key has another legend.
LINE_OF_KEY = {"SIGMA+": "S+", "ENTER": "ENTER^"}


class Ending:
    """A line of which the end alone is said."""

    def __init__(self, end: str) -> None:
        """Takes the end."""
        self.end = end

    def __eq__(self, line: object) -> bool:
        """Returns whether a line has this end."""
        return isinstance(line, str) and line.endswith(self.end)

    def __repr__(self) -> str:
        """Returns the end after two points."""
        return f"..{self.end}"


ANY = Ending("")

# A line that is printed, or the end of one.
Line = Union[str, Ending]


def number_key(text: str, key: str) -> Optional[str]:
    """What a key makes of the characters of a number; none where the number ends."""
    before, exponent, after = text.partition("E")
    if key in DIGITS:
        full = len(after.lstrip("-")) == 2 if exponent else sum(each in DIGITS for each in before) == 10
        return text if full else text + key
    if key == ".":
        return text if exponent or "." in before else text + "."
    if key == "EEX":
        return text if exponent else text + ("E" if DIGITS & set(before) else "1E")
    if key == "CHS":
        def turned(part: str) -> str:
            """Returns a part with the other sign."""
            return part[1:] if part.startswith("-") else f"-{part}"
        return (before + exponent + turned(after) if exponent else turned(before)) or None
    return text[:-1] or None


class Calculator(Lines):
    """The state, and what changes it."""

    # ---- The commands of a deck

    def answers(self, command: str) -> list[Line]:
        """What a command prints; a `program` block is one command, with its lines."""
        head, *block = command.split("\n")
        word, *words = head.split()
        try:
            answer = getattr(self, f"do_{word}")(*(words if not block else block[:-1]))
        except Refused as refusal:
            return [str(refusal)]
        return list(answer or [])

    def do_reset(self) -> None:
        """Empties the calculator. A page stays."""
        page = self.words
        self.__dict__ = Calculator().__dict__
        self.words = page

    def do_words(self, *block: str) -> None:
        """Plugs a page."""
        self.words = " ".join(block).split()

    def do_size(self, count: str) -> None:
        """Sets the number of data registers."""
        self.size = int(count)
        self.number, self.text = None, ""

    def do_call(self, address: str) -> None:
        """Starts a function."""
        self.caller, self.mode, self.address = self.mode, "Micro", address
        self.number, self.text = None, ""

    def do_program(self, *lines: str) -> None:
        """Here it is the first load."""
        self.lines = [*lines, ".END."]
        self.pack()
        self.at, self.top, self.returns = 0, True, ()
        self.number, self.text = None, ""

    def do_step(self, count: str = "1") -> None:
        """Executes some steps."""
        for _ in range(int(count)):
            self.attempt(Calculator.step)

    def do_key(self, *names: str) -> None:
        """Presses keys."""
        for name in names:
            self.attempt(Calculator.press, name)

    def do_show(self, what: str) -> list[Line]:
        """Returns what a view prints."""
        if what == "display":
            return [self.display()]
        if what == "alpha":
            return [self.alpha]
        if what == "pos":
            return [f"Micro {self.address}" if self.mode == "Micro" else f"{self.mode} {self.at:04d}"]
        if what == "stack":
            return [f"{name}={register_digits(self.stack[name])}" for name in "TZYXL"]
        if what == "flags":
            return [" ".join(f"{flag:02d}" for flag in sorted(self.flags))]
        if what == "lines":
            return [f"{place:04d} {line}" for place, line in zip(self.places, self.lines)] if self.sound else []
        if what == "cpu":
            return [ANY, ANY, ANY, Ending(f" KY={self.code:02X} KF={self.pressed}"), ANY]
        raise ValueError(what)

    # ---- What the display shows

    def display(self) -> str:
        """Returns what the display shows."""
        if self.message is not None:
            return self.message
        if self.waiting:
            return self.prompt_text()
        if self.program_mode and not self.sound:
            return "?"
        if self.program_mode:
            if self.top:
                return f"00 REG {self.free()}"
            index = self.index()
            typing = "_" if self.number is not None or self.text == "letters" else ""
            return f"{index - self.first(index) + 1:02d} {self.lines[index]}{typing}"
        if 48 in self.flags:
            return self.alpha
        if self.number is not None:
            return ("NEG" if self.number == "-" else self.number) + "_"
        return register_text(self.stack["X"], self.flags)

    def wanted_digits(self) -> int:
        """Returns how many digits the prompt takes."""
        return 2 if self.indirect else WAITING[sure(self.waiting)][0]

    def prompt_text(self) -> str:
        """Returns the prompt as it is shown."""
        head = sure(self.waiting) + (" IND" if self.indirect else "")
        if self.name is not None:
            return f'{head} "{self.name}_'
        if self.point:
            return f"{head} {'._' if self.is_goto_point() else 'ST _'}"
        return f"{head} {self.digits}{'_' * (self.wanted_digits() - len(self.digits))}"

    def is_goto_point(self) -> bool:
        """Returns whether the prompt is GTO with a point."""
        return self.point and self.waiting == "GTO" and not self.indirect

    # ---- Keys

    def press(self, name: str) -> None:
        """Presses a key."""
        key = KEYS[name]
        if name in ("ON", "USER"):
            raise Refused(KEY_NOT_HELD)
        if self.mode == "Idle" and not self.sound:
            self.sound = True
            try:
                self.press(name)
            except Refused as refusal:
                if str(refusal) == KEY_NOT_HELD:
                    raise
            raise Refused(MEMORY_LOST)
        self.code, self.pressed = key.code, 1
        if self.mode != "Idle":
            if name == "R/S" and self.mode == "Run":
                self.mode = "Idle"
        elif name == "BACK" and self.message is not None and not self.shift:
            self.message = None
        else:
            self.message = None
            if self.waiting:
                self.press_in_prompt(key)
            else:
                self.press_alone(key)

    def press_alone(self, key: Key) -> None:
        """Presses a key without a prompt."""
        name = key.name
        if name == "SHIFT":
            self.shift = not self.shift
            return
        shifted, self.shift = self.shift, False
        if name in ("ALPHA", "PRGM"):
            self.number, self.text = None, ""
            if name == "ALPHA":
                self.flags ^= {48}
            else:
                self.program_mode = not self.program_mode
        elif name == "SST":
            self.number, self.text = None, ""
            if shifted:
                self.go_back()
            elif self.program_mode:
                self.go_on()
            else:
                self.step()
        elif 48 in self.flags:
            self.press_letter(key, shifted)
        elif not shifted and (name in DIGITS | {".", "EEX"} or name in ("CHS", "BACK") and self.number is not None):
            self.press_number(name)
        else:
            self.number = None
            self.press_function(key, shifted)

    def press_function(self, key: Key, shifted: bool) -> None:
        """Presses a key with a function, which begins a prompt, or types a line."""
        name = key.shifted if shifted else LINE_OF_KEY.get(key.name, key.name)
        if name is None:
            raise Refused(KEY_NOT_HELD)
        if name in WAITING:
            self.wait_for(name)
        elif name == "BACK" and self.program_mode:
            self.delete()
        elif name == "R/S" and not self.program_mode:
            self.mode = "Run"
        else:
            self.line({"BACK": "CLX", "R/S": "STOP"}.get(name, name))

    def wait_for(self, function: str) -> None:
        """A function waits for its parameter."""
        self.waiting, self.indirect, self.digits, self.point, self.name = function, False, "", False, None

    def press_number(self, name: str) -> None:
        """Presses a key of a number."""
        before = self.number
        if before is None:
            self.number = number_key("", name)
            if self.program_mode:
                self.insert(sure(self.number))
                return
            self.bring_in(Decimal(0))
            self.lift = True
            self.flags |= {22}
        else:
            self.number = number_key(before, name)
            if self.program_mode and self.number is None:
                self.delete()
            elif self.program_mode and self.number != before:
                self.replace("NEG" if self.number == "-" else sure(self.number))
        if not self.program_mode:
            self.stack["X"] = Decimal(0) if self.number is None else typed(self.number)
            self.lift = self.number is not None

    def press_letter(self, key: Key, shifted: bool) -> None:
        """A key with flag 48 set."""
        if not shifted and key.letter:
            self.write(key.letter)
        elif not shifted and key.name == "BACK":
            self.take_letter()
        elif shifted and key.name in WRITTEN:
            self.write(key.name)
        elif shifted and key.name == "XEQ":
            if self.program_mode or self.text != "letters":
                self.text = "append"
        elif shifted and key.name in ("STO", "RCL"):
            self.wait_for({"STO": "ASTO", "RCL": "ARCL"}[key.name])
        elif shifted and key.name in ("BACK", "R/S"):
            self.line({"BACK": "CLA", "R/S": "AVIEW"}[key.name])
        else:
            raise Refused(KEY_NOT_HELD)

    def write(self, letter: str) -> None:
        """Writes a letter to ALPHA, or in program mode to a text."""
        if not self.program_mode:
            self.alpha = ((self.alpha if self.text else "") + letter)[-24:]
            self.flags |= {23}
        elif self.text == "letters":
            line = self.lines[self.index()]
            if length(line) < 16:
                self.replace(f'{line[:-1]}{letter}"')
        else:
            self.insert(f'{">" if self.text else ""}"{letter}"')
        self.text = "letters"

    def take_letter(self) -> None:
        """Removes the last letter."""
        if not self.program_mode:
            self.alpha = self.alpha[:-1] if self.text == "letters" else ""
            self.text = self.text if self.text == "letters" else ""
            return
        line = self.lines[self.index()]
        if self.text == "letters" and len(line.lstrip(">")) > 3:
            self.replace(f'{line[:-2]}"')
        else:
            self.text = ""
            self.delete()

    # ---- Prompts

    def press_in_prompt(self, key: Key) -> None:
        """Presses a key in a prompt."""
        if self.name is not None:
            self.press_in_name(key)
            return
        name, bare = key.name, not (self.digits or self.point)
        digits, stack_alone, takes_name = WAITING[sure(self.waiting)]
        if name == "BACK":
            if bare:
                self.waiting = None
            self.digits, self.point = "", False
        elif name == "SHIFT":
            one_digit = digits == 1
            if self.waiting == "LBL" or self.point and not stack_alone or self.digits and one_digit:
                raise Refused(KEY_NOT_HELD)
            self.indirect = not self.indirect
        elif self.is_goto_point():
            if name != ".":
                raise Refused(KEY_NOT_HELD)
            self.waiting = None
            self.go_to_end()
        elif self.point:
            if key.letter not in STACK:
                raise Refused(KEY_NOT_HELD)
            self.end_prompt(sure(key.letter))
        elif name in DIGITS:
            self.digits += name
            if len(self.digits) == self.wanted_digits():
                self.end_prompt(self.digits.rjust(2, "0"))
        elif name == "." and bare and (stack_alone or self.indirect or self.waiting == "GTO"):
            self.point = True
        elif name in set("+-*/") and bare and self.waiting == "STO" and not self.indirect:
            self.waiting = f"ST{name}"
        elif name == "ALPHA" and takes_name and bare and not self.indirect:
            self.name = ""
        else:
            raise Refused(KEY_NOT_HELD)

    def end_prompt(self, operand: str) -> None:
        """Ends a prompt with its operand: its line is typed."""
        line = f"{self.waiting}{' IND' if self.indirect else ''} {operand}"
        self.waiting = None
        self.line(line)

    def press_in_name(self, key: Key) -> None:
        """Presses a key in a name."""
        if key.name == "SHIFT":
            self.shift = not self.shift
            return
        shifted, self.shift = self.shift, False
        if key.name == "ALPHA" and self.name:
            waiting, self.waiting = self.waiting, None
            local = self.name in tuple("ABCDEFGHIJ")
            self.line(f"{waiting} {self.name}" if local else f'{waiting} "{self.name}"')
        elif key.name == "BACK" and not shifted:
            if not self.name:
                self.waiting = None
            self.name = sure(self.name)[:-1]
        else:
            written = key.name if key.name in WRITTEN else None
            letter = written if shifted else key.letter
            if letter is None or len(sure(self.name)) == 7:
                raise Refused(KEY_NOT_HELD)
            self.name = sure(self.name) + letter

    # ---- What keys do in a program

    def go_on(self) -> None:
        """SST in program mode."""
        index = self.index()
        if self.top:
            self.top = False
        elif self.lines[index] in ("END", ".END."):
            self.go_top(index)
        else:
            self.go(index + 1)

    def go_back(self) -> None:
        """BST."""
        index = self.index()
        if self.top:
            self.go(self.last(index))
        elif index == self.first(index):
            self.go_top(index)
        else:
            self.go(index - 1)

    def go_to_end(self) -> None:
        """GTO . . adds an END after a last program that has lines, and goes to the line after it."""
        if self.lines[-2:-1] not in ([], ["END"]):
            self.changed(self.lines[:-1] + ["END", ".END."], len(self.lines))
        self.go_top(len(self.lines) - 1)
