"""Explains an instruction or a program line in a sentence, from the table tools/explanations and the values that the bench shows."""
import os
import re
from functools import lru_cache
from typing import Callable, NamedTuple, Optional, Union

from . import TOOLS
from .decks import bytes_of
from .foreseen import END_OF_FUNCTION, STACK_NUMBERS, Around, Error, Foreseen, register

TABLE = os.path.join(TOOLS, "explanations")

# What the letters in patterns stand for.
LETTERS = {"F": "(?P<F>@R|S&X|R<|ALL|P-Q|XS|MS|M)", "N": "[0-9]+", "H": "[0-9A-F]+",
           "R": "(?P<R>(?:IND )?(?:[0-9]{2,3}|[TZYXLMNOPQa-eA-J]|append|[0-9]))"}
PLACEHOLDER = re.compile(r"\{([^}]*)\}(?=( ?))")
# The placeholders that stand for a value after a comma, or end with one.
WITHIN = ("{value}", "{indirect}", "{flag}", "{ending}")
# A comma of a value, while a sentence is filled in.
VALUE_COMMA = "\0"
# A text that a name of a function cannot be.
NO_FUNCTION = re.compile(r"[0-9.E+-]{2,}|[0-9.E]|NEG.*|[\">].*|LBL .*|\.?END\.?")
# What is added to a sentence about the display if it is not known whether the display is off.
IF_OFF = " If the display is off, it stays off until the next key that is accepted."
# Where a sentence is cut if its step fails: what follows is what would happen afterwards.
CUT = re.compile(r"; |, after lifting |\.$")
# What is said of a jump that is not taken.
FOLLOWS = "; the next word follows"
# What is said of the line after a test or a loop.
SKIPPED = re.compile("the next line is skipped")
# The names of registers of the processor, and of those of programs, for whose next value a learner can be asked.
ASKED = re.compile("[ABCMNGXYZT]|ST|RTN|ALPHA|LAST X|R[0-9]+")
# How many flags there are, and the one that is set while the display shows ALPHA.
FLAGS, ALPHA_FLAG = 56, "48"
FIELDS = {"S&X": (2, 0), "ALL": (13, 0), "XS": (2, 2), "M": (12, 3), "MS": (13, 13)}


class Row(NamedTuple):
    """A row of the table: the pattern of a text, what the step changes, the sentence, and what the bench checks before the step."""
    pattern: re.Pattern[str]
    changes: list[str]
    sentence: str
    checks: list[str]


@lru_cache(maxsize=None)
def rows() -> dict[str, list[Row]]:
    """Returns the rows of the table, those of words and those of lines."""
    found: dict[str, list[Row]] = {}
    section: list[Row] = []
    for line in bytes_of(TABLE).decode("utf-8").splitlines():
        if line.startswith("["):
            section = found.setdefault(line.strip("[]"), [])
        elif line and not line.startswith("#"):
            pattern, changes, sentence, checks = (line + " | " * (line.count(" | ") < 3)).split(" | ")
            pattern = re.sub(r"(?:(?<=[ (])|(?<=ENBANK\())[FNHR](?=[ )|]|$)", lambda one: LETTERS[one[0]], pattern)
            named = [] if changes == "-" else changes.split()
            section.append(Row(re.compile(pattern), named, sentence, checks.split(", ") if checks else []))
    return found


def row_of(text: str, kind: str) -> tuple[Optional[Row], Optional[re.Match[str]]]:
    """Returns the row for a text, and the match of its pattern; None and None if there is none. `kind` is words, lines or display off."""
    for row in rows()[kind]:
        found = row.pattern.fullmatch(text)
        if found:
            return row, found
    return None, None


def is_function(name: str) -> bool:
    """Returns whether the calculator itself has a function of a name, without an operand."""
    _, found = row_of(name, "lines")
    return found is not None and not found.re.groups and not NO_FUNCTION.fullmatch(name)


def kept(value: str) -> str:
    """Returns a value for a sentence that is being filled in, so that its commas are kept."""
    return value.replace(",", VALUE_COMMA)


class Explained:
    """A text with the values before its step, and the sentence about it. The carry after the step is named if it is known. `is_over` is
    whether the bench finds the result out of range; None if it was not asked."""

    def __init__(self, text: str, values: dict[str, str], is_word: bool, after: Optional[dict[str, str]] = None,
                 around: Around = Around(), is_over: Optional[bool] = None) -> None:
        """Finds the row of an instruction if `is_word` is set, otherwise that of a program line."""
        self.text, self.values, self.after, self.around = text, values, after or {}, around
        self.row, self.found = row_of(text, "words" if is_word else "lines")
        self.is_word, self.is_over = is_word, is_over
        # The line for which the bench must be asked whether its result is out of range.
        self.unsure: Optional[tuple[str, str]] = None

    def is_supported(self) -> bool:
        """Returns whether the bench supports the operand of a line, if it has one."""
        operand = (self.found.groupdict().get("R") or "") if self.found else ""
        name = operand.removeprefix("IND ")
        return not name or name in STACK_NUMBERS or re.fullmatch("[0-9]{1,2}", name) is not None

    def is_refused(self) -> bool:
        """Returns whether the bench refuses the step of a line or an instruction, whatever the state is."""
        return not self.is_supported() or self.row is not None and "REFUSED" in self.row.changes

    def error(self) -> Optional[Error]:
        """Returns the error of a line, or the refusal of an instruction, that can be foreseen. Afterwards `unsure` is the line for which
        the bench must be asked, as Foreseen has it."""
        foreseen = Foreseen(self, self.around)
        error = foreseen.error() if self.is_supported() else None
        self.unsure = foreseen.unsure
        return error

    def function(self, name: str) -> Optional["Explained"]:
        """Returns the calculator's own function of a name, as its line; None if it has none."""
        return Explained(name, self.values, False, self.after, self.around, self.is_over) if is_function(name) else None

    def called(self) -> Optional["Explained"]:
        """Returns the calculator's own function that a line calls by its name; None if it calls none, or if this is not known."""
        name, lines, functions = self.group(1) if self.text.startswith('XEQ "') else "", self.around.lines, self.around.functions or []
        is_other = lines is None or f"LBL {name}" in lines or any(line[11:] == name[1:-1] for line in functions)
        return None if not name or is_other else self.function(name[1:-1])

    def sentence(self, is_off: Optional[bool] = False) -> str:
        """Returns the sentence; an empty text if the table has no row. `is_off` is whether the display is off; None if this is not
        known."""
        if self.row is None:
            return ""
        if not self.is_supported():
            return f"{self.text} is not supported: the step is refused."
        called = self.called()
        if called:
            told = called.sentence(is_off)
            return told if told.startswith(called.text) else f"Executes the function {called.text}: {told[0].lower()}{told[1:]}"
        error, row_if_off = self.error(), row_of(self.text, "display off")[0]
        sentence = row_if_off.sentence if is_off and row_if_off else self.row.sentence
        if error is None:
            is_doubtful = is_off is None and row_if_off is not None and "display?" not in self.row.changes
            told = self.filled(SKIPPED.sub(self.skips(), sentence)) + (IF_OFF if is_doubtful else "")
            return told + (" The result may be OUT OF RANGE." if self.unsure else "")
        done = self.filled(CUT.split(sentence)[0]).removesuffix(FOLLOWS)
        if self.is_word or error.message.endswith(")"):
            return f"{done}, but the step is refused as {error.message}: {error.cause}."
        ignored = "; flag 25 is set, so the error is ignored, and the flag is cleared"
        is_ignored = "25" in self.values.get("flags", "").split()
        return f"{done}: {error.message}, because {error.cause}{ignored if is_ignored else ''}."

    def filled(self, sentence: str) -> str:
        """Returns a sentence of the table with its values. The commas between its parts are tidied, those of values are not."""
        text = PLACEHOLDER.sub(lambda one: self.going_on(one[1]) if one[0] in WITHIN and one[2] else self.part(one[1]), sentence)
        return re.sub(r",+(?=[,.;]|$)|(?<=names),", "", text).replace(VALUE_COMMA, ",")

    def skips(self) -> str:
        """Returns what a test or a loop does instead of executing the next line. `.END.` in memory, and bytes that are no line, cannot be
        skipped."""
        if self.around.after == ".END.":
            return "the program continues with .END., which cannot be skipped"
        if self.around.after == "":
            return "the step is refused as BrokenProgram (14), because the bytes after this line are no line"
        return "the next line is skipped"

    def going_on(self, name: str) -> str:
        """Returns what a placeholder stands for within a sentence: a value after a comma is followed by a comma."""
        part = self.part(name)
        return f"{part}," if ", " in part else part

    def asks(self) -> str:
        """Returns the name of a register that the step changes, whose next value can be asked for; an empty text if there is none, or if
        the step fails."""
        if self.row is None or self.is_refused() or self.error():
            return ""
        for change in self.row.changes:
            name = re.split("[.=?]", change)[0].strip("{}")
            name = Foreseen(self, self.around).target() if name == "R" else self.named(name)
            if ASKED.fullmatch(name):
                return name
        return ""

    def part(self, name: str) -> str:
        """Returns what a placeholder stands for."""
        special: Optional[Callable[[], str]] = getattr(self, f"part_{name}", None)
        if special:
            return special()
        if name in ("0", "text"):
            return kept(self.text) if name == "text" else "0"
        return kept(self.value(name))

    def group(self, which: Union[int, str]) -> str:
        """Returns the text of a group of the pattern; an empty text if the table has no row."""
        return self.found[which] if self.found else ""

    def named(self, name: str) -> str:
        """Returns a name without groups: `1` is the first group, `PT` the active pointer, `x1` the first group in hexadecimal."""
        if name.isdigit():
            return self.group(int(name))
        if re.fullmatch("x[0-9]", name):
            return f"{int(self.group(int(name[1]))):X}"
        return self.values.get("PT", "?") if name == "PT" else name

    def value(self, name: str) -> str:
        """Returns the value of a name: `A`, `A.F` for its digits in the field, `A.6-3` for digits, `=1` for what a group names."""
        whole, _, part = name.lstrip("=").partition(".")
        if not name.startswith("=") and (whole.isdigit() or whole == "PT" or whole[:1] == "x"):
            return self.named(whole)
        value = self.values.get(self.named(whole))
        if value is None:
            return "?"
        return value if not part else "".join(value[len(value) - 1 - at] for at in self.places(part))

    def places(self, part: str) -> list[int]:
        """Returns the places of digits, the highest first: those of the field F, or of `6-3`, `@R` or `G`."""
        pointer = int(self.values.get(self.values.get("PT", "P"), "0"), 16)
        if part == "G":
            return [(pointer + 1) % 14, pointer]
        if part == "F":
            part = self.group("F")
        if part in FIELDS:
            high, low = FIELDS[part]
        elif part in ("@R", "R<"):
            high, low = pointer, pointer if part == "@R" else 0
        elif part == "P-Q":
            low, high = int(self.values["P"], 16), int(self.values["Q"], 16)
            high = 13 if low > high else high
        else:
            high, _, low = (int(digit or 0) for digit in part.replace("-", "--").split("-")) if "-" in part else (int(part), 0, int(part))
        return list(range(high, low - 1, -1))

    # Placeholders with names.

    def part_F(self) -> str:
        """Returns the name of the field's digits."""
        places = self.places("F")
        return f"the digits {places[0]} to {places[-1]}" if len(places) > 1 else f"the digit {places[0]}"

    def part_are(self) -> str:
        """Returns the verb for the field's digits."""
        return "are" if len(self.places("F")) > 1 else "is"

    def part_those(self) -> str:
        """Returns the pronoun for the field's digits."""
        return "those" if len(self.places("F")) > 1 else "that"

    def part_sum(self) -> str:
        """Returns what a sum adds."""
        target, second = self.group(1), self.group(2)
        first = self.text[2]
        if first == second:
            return f"Doubles {self.part_F()} of {first}, {self.value(first + '.F')}"
        return (f"Adds {self.part_F()} of {first}, {self.value(first + '.F')}, and {self.part_those()} of {second}, "
                f"{self.value(second + '.F')}, and writes the sum to {target}")

    def part_carry(self) -> str:
        """Returns what the carry will be."""
        changes = self.row.changes if self.row else []
        known = next((change[3:] for change in changes if change.startswith("CY=")), None)
        if known is None and "CY?" in changes:
            known = self.after.get("CY")
        elif known is None:
            known = "0"
        return f"the carry will be {self.filled(known)}" if known else ("the carry will be the answer" if self.text[0] == "?" else
                                                              "the carry will be what the last digit carries")

    def part_wanted(self) -> str:
        """Returns the carry for which a jump is taken."""
        return "0" if self.group(1) == "NC" else "1"

    def part_taken(self) -> str:
        """Returns whether a jump is taken."""
        return "it does" if self.values.get("CY") == self.part_wanted() else f"it does not{FOLLOWS}"

    def part_returns(self) -> str:
        """Returns where the newest return address leads: to a word, or to the end of the function."""
        address = self.part_return()
        if address != f"{END_OF_FUNCTION:04X}":
            return f"Returns to {address}"
        return f"Ends the function: its return address is {address}" if self.text == "RTN" else \
            f"Ends the function, whose return address is {address},"

    def part_ending(self) -> str:
        """Returns that the address of a jump or a call is the one at which a function ends, after a comma; nothing if it is not."""
        address = self.group(2) if self.text.startswith("?") else self.value("C.6-3")
        return ", which ends the function" if address == f"{END_OF_FUNCTION:04X}" else ""

    def part_return(self) -> str:
        """Returns the newest return address."""
        return self.values.get("RTN", "?")[:4]

    def part_R(self) -> str:
        """Returns the register of an operand."""
        operand = self.group("R")
        if operand.startswith("IND "):
            return f"the register that {self.going_on('indirect')} names"
        return register(operand)

    def part_value(self) -> str:
        """Returns the value of the operand's register, after a comma."""
        operand = self.group("R")
        return "" if operand.startswith("IND ") else self.told(register(operand))

    def part_operand(self) -> str:
        """Returns the operand as it is written, or what names it."""
        operand = self.found.groupdict().get("R") if self.found else None
        if operand is None:
            return kept(self.text.partition(" ")[2])
        return f"of the number in {self.going_on('indirect')}" if operand.startswith("IND ") else operand

    def part_indirect(self) -> str:
        """Returns the register of an indirect operand with its value."""
        name = register(self.group("R").removeprefix("IND "))
        return f"{name}{self.told(name)}"

    def part_flag(self) -> str:
        """Returns the flag of an operand, and whether it is set."""
        operand = self.group("R")
        if operand.startswith("IND "):
            return f"the flag that {self.going_on('indirect')} names"
        if not operand.isdigit() or int(operand) >= FLAGS:
            return f"flag {operand}"
        is_set = operand in self.values.get("flags", "").split()
        return f"flag {operand}, which is {'set' if is_set else 'clear'}"

    def part_shown(self) -> str:
        """Returns what the display shows without a message, with its value."""
        name = "ALPHA" if ALPHA_FLAG in self.values.get("flags", "").split() else "X"
        return f"{name}{self.told(name)}"

    def part_on(self) -> str:
        """Returns which keys continue the program after a line that stops it. While ALPHA is on, R/S is refused."""
        is_alpha = ALPHA_FLAG in self.values.get("flags", "").split()
        return "the keys ALPHA and R/S continue with the next line" if is_alpha else "the key R/S continues with the next line"

    def told(self, name: str) -> str:
        """Returns the value of a register after a comma; nothing if it is not known."""
        value = self.values.get(name)
        return f", {kept(value)}" if value is not None else ""

    def part_selects(self) -> str:
        """Returns that no register of memory has the address in C, if none has it."""
        address = int(self.value("C.2-0"), 16) & 0x3FF
        return "" if Foreseen(self, self.around).has_register(address) else ": there is no such register"

    def part_reads(self) -> str:
        """Returns what a read of an address without a register gives, if it has none."""
        foreseen = Foreseen(self, self.around)
        return "" if foreseen.has_register(foreseen.selected()) else ": there is no such register, so C becomes 0"

    def part_writes(self) -> str:
        """Returns what a write to an address without a register does, if it has none."""
        foreseen = Foreseen(self, self.around)
        return "" if foreseen.has_register(foreseen.selected()) else ": there is no such register, so nothing is written"

    def part_protected(self) -> str:
        """Returns what happens if the page of the address in C is read-only, unless it is known to be writable."""
        return "" if self.value("C.6-3")[:1] in self.around.writable else ", unless the page is read-only: then the step is refused"

    def part_fetches(self) -> str:
        """Returns what a read from a page without a module gives, if it has none."""
        return "; no module is plugged there, so the digits become 000" if Foreseen(self, self.around).is_unplugged() else ""


def values_of(cpu: list[str]) -> dict[str, str]:
    """Returns the values in the lines of `show cpu`."""
    values = dict(part.split("=") for line in cpu[:4] for part in line.split())
    return {**values, "RTN": cpu[4].removeprefix("RTN=")}


def of_word(text: str, cpu: list[str], after: Optional[list[str]] = None, around: Around = Around()) -> Explained:
    """Returns what is said about an instruction; `cpu` are the lines of `show cpu` before its step, and `after` those after it."""
    return Explained(text, values_of(cpu), True, values_of(after) if after else None, around)


def of_line(text: str, numbers: list[str], registers: list[str], alpha: str, flags: str, around: Around = Around()) -> Explained:
    """Returns what is said about a program line: `numbers` are those of T, Z, Y, X and LAST X, `registers` those of the data registers."""
    values = dict(zip(("T", "Z", "Y", "X", "LAST X"), numbers))
    values.update((f"R{at:02}", value) for at, value in enumerate(registers))
    if "LAST X" in values:
        values["L"] = values["LAST X"]
    return Explained(text, {**values, "ALPHA": f'"{alpha}"', "flags": flags}, False, None, around)


def is_carrying(text: str) -> bool:
    """Returns whether the carry after an instruction follows from its result."""
    row, _ = row_of(text, "words")
    return row is not None and "CY?" in row.changes
