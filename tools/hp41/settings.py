"""Settings of tests such as `X=5` or `C=00F`: their names, and their values as the digits that the bench prints."""
from __future__ import annotations

import re
from collections.abc import Callable
from functools import cache
from typing import NamedTuple

from .decks import Failure

STACK = {"T": 0x000, "Z": 0x001, "Y": 0x002, "X": 0x003, "L": 0x004}
WIDE = ("A", "B", "C", "M", "N")
# Registers of the processor as `show cpu` names them. T is that of the stack, and cpu.T that of the processor.
CPU = (*WIDE, "G", "cpu.T", "ST", "P", "Q", "PT", "CY", "MODE", "RAM")
ALONE = ("ALPHA", "keys", "display", "steps", "refusal")
ONLY_BEFORE, ONLY_AFTER = ("keys",), ("CY", "display", "steps", "refusal")

SETTING = re.compile(r"""([A-Za-z0-9.]+)(<=|=)("[^"]*"|'[^']*'|\S+)""")
NUMBER = re.compile(r"(-?)([0-9]*)\.?([0-9]*)(?:E([-+]?[0-9]{1,2}))?")
MEMORY_NAME = re.compile("[0-3][0-9A-Fa-f]{2}")
DATA_NAME = re.compile("R([0-9]{2,3})")
FLAG_NAME = re.compile("F([0-5][0-9])")
DIGITS = 14
MOST_STEPS = 9_999_999


class Wrong(Failure):
    """A setting cannot be read. The text says why, and `word` is the word of the row that is wrong."""

    def __init__(self, why: str, word: str = "") -> None:
        """Takes the message and the word."""
        super().__init__(why)
        self.word = word


class Setting(NamedTuple):
    """A setting: its name, its sign (`=` or `<=`), and its value in the form in which the bench prints it."""
    name: str
    sign: str
    value: str


def digits_of(text: str) -> str | None:
    """Returns the 14 digits of a number in a register of memory; None if it is not a number of at most ten digits."""
    found = NUMBER.fullmatch(text)
    if not found or not found[2] + found[3]:
        return None
    digits = (found[2] + found[3]).lstrip("0")
    exponent = len(found[2]) - 1 - (len(found[2] + found[3]) - len(digits)) + int(found[4] or 0)
    digits = digits.rstrip("0")
    if not digits:
        return "0" * DIGITS
    if len(digits) > 10 or not -99 <= exponent <= 99:
        return None
    return f"{'9' if found[1] else '0'}{digits:0<10}{exponent % 1000:03}"


def characters(value: str, most: int) -> str:
    """Returns the characters of a text, without its quotes if it has some."""
    own = text(value)
    if own != value and (len(value) < 2 or value[-1] != value[0]):
        raise Wrong(f"found `{value}`, expected the same quote at its end")
    other = re.search("[^ -~]", own)
    if other:
        raise Wrong(f"found `{other[0]}` (U+{ord(other[0]):04X}) in `{value}`, expected printable ASCII characters")
    if len(own) > most:
        raise Wrong(f"found `{value}`, a text of {len(own)} characters, expected at most {most}")
    return own


def register(value: str) -> str:
    """Returns the digits of a register of memory: from 14 digits, a text of at most six characters, or a number."""
    if re.fullmatch("[0-9A-Fa-f]{14}", value):
        return value.upper()
    if value[:1] in ("'", '"'):
        return f"10{characters(value, 6).encode().hex().upper():0>12}"
    digits = digits_of(value)
    if digits is None:
        from .case_causes import of_register
        raise Wrong(f"found `{value}`, expected a number of at most ten digits with an exponent from -99 to 99, 14 hexadecimal digits, or "
                    f'a text of at most six characters like "ABC"{of_register(value)}')
    return digits


def hexadecimal(width: int, most: int) -> Callable[[str], str]:
    """Returns the reader of a hexadecimal number, which is printed with so many digits."""
    def read(text: str) -> str:
        """Returns a number with all its digits. Raises Wrong if it is none, or too great."""
        if not re.fullmatch(f"[0-9A-Fa-f]{{1,{width}}}", text) or int(text, 16) > most:
            from .case_causes import of_hexadecimal
            raise Wrong(f"found `{text}`, expected 1 to {width} hexadecimal digits, at most {most:X}{of_hexadecimal(text, width)}")
        return f"{int(text, 16):0{width}X}"
    return read


def pointer(text: str) -> str:
    """Returns a pointer as the bench prints it, from its decimal number."""
    if not text.isdecimal() or int(text) > 13:
        own = f", in decimal: {int(text, 16)}" if re.fullmatch("[A-Da-d]", text) else ""
        raise Wrong(f"found `{text}`, expected a place from 0 to 13{own}")
    return f"{int(text):X}"


def one_of(*values: str) -> Callable[[str], str]:
    """Returns the reader of a value that is one of a few words."""
    def read(text: str) -> str:
        """Returns the word. Raises Wrong if it is none of the values."""
        if text not in values:
            from .case_causes import of_word
            raise Wrong(f"found `{text}`, expected {' or '.join(values)}{of_word(text, values)}")
        return text
    return read


def text(value: str) -> str:
    """Returns a text without its quotes."""
    return value[1:-1] if value[:1] in ("'", '"') else value


def alpha(value: str) -> str:
    """Returns the text of ALPHA."""
    return characters(value, 24)


def refusal(value: str) -> str:
    """Returns the name or number of a refusal, or the address in it, or several of these."""
    name, known = text(value), refusals()
    if not {*known, *known.values()} & {*name.split()} and not re.search(r"\b[0-9A-F]{4}\b", name):
        from difflib import get_close_matches
        numbers = {number: one for one, number in known.items()}
        is_number = name.isdecimal() and name.zfill(2) in numbers
        near = [f"{name:0>2} {numbers[name.zfill(2)]}"] if is_number else get_close_matches(name, known, 1)
        raise Wrong(f"found `{value}`, expected a refusal{f', the nearest is {near[0]}' if near else ''}: docs/DECK.md has all of them")
    return name


@cache
def refusals() -> dict[str, str]:
    """Returns the refusals of docs/DECK.md: the number of each, by its name."""
    from .documents import section_of
    return {name: number for number, name in re.findall(r"`! (\d\d) (\w+)", section_of("DECK.md", "Refusals"))}


def steps(value: str) -> str:
    """Returns a number of steps."""
    if not value.isdecimal() or int(value) > MOST_STEPS:
        hint = "; a limit is written steps<=40" if value[:1] in "<>" else ""
        raise Wrong(f"found `{value}`, expected a number of steps up to {MOST_STEPS:,}{hint}")
    return str(int(value))


READERS: dict[str, Callable[[str], str]] = {
    **{name: register for name in STACK}, **{name: hexadecimal(DIGITS, 16 ** DIGITS - 1) for name in WIDE},
    "G": hexadecimal(2, 0xFF), "cpu.T": hexadecimal(2, 0xFF), "ST": hexadecimal(4, 0x3FFF), "P": pointer, "Q": pointer,
    "PT": one_of("P", "Q"), "CY": one_of("0", "1"), "MODE": one_of("HEX", "DEC"), "RAM": hexadecimal(3, 0x3FF),
    "ALPHA": alpha, "keys": text, "display": text, "steps": steps, "refusal": refusal}


def reader_of(name: str) -> Callable[[str], str]:
    """Returns the function that reads the value of a setting with this name."""
    if name in READERS:
        return READERS[name]
    if MEMORY_NAME.fullmatch(name) or DATA_NAME.fullmatch(name):
        return register
    if FLAG_NAME.fullmatch(name) and int(name[1:]) <= 55:
        return one_of("0", "1")
    if re.fullmatch("F[0-9]{2,}", name):
        raise Wrong(f"{name}: no such flag: expected one from F00 to F55")
    if re.fullmatch("[RF][0-9]", name):
        raise Wrong(f"{name}: a register or flag has two digits: write {name[0]}0{name[1]}")
    if any(other.lower() == name.lower() for other in READERS):
        raise Wrong(f"{name}: upper and lower case differ: write {next(other for other in READERS if other.lower() == name.lower())}")
    from .case_causes import of_name
    raise Wrong(f"{name}: no such register{of_name(name, READERS)}: expected one of {', '.join([*STACK, *CPU, *ALONE])}, a data register "
                "like R05, a flag like F22, or an address of memory like 00D")


def setting(name: str, sign: str, value: str, is_before: bool) -> Setting:
    """Returns a setting before or after a call."""
    read = reader_of(name)
    if name in (ONLY_AFTER if is_before else ONLY_BEFORE):
        raise Wrong(f"found `{name}{sign}{value}` {'before' if is_before else 'after'} ->, expected {name} only "
                    f"{'after' if is_before else 'before'} it")
    if sign == "<=" and name != "steps":
        raise Wrong(f"found `{name}<={value}`, expected {name}={value}: only steps can have a limit")
    try:
        return Setting(name.upper() if MEMORY_NAME.fullmatch(name) else name, sign, read(value))
    except Wrong as why:
        raise Wrong(f"{name}: {why}") from why


def settings_in(words: list[str], is_before: bool) -> list[Setting]:
    """Returns the settings in some words."""
    found: list[Setting] = []
    before: dict[str, str] = {}
    for word in words:
        parts = SETTING.fullmatch(word)
        if not parts:
            from .case_causes import of_setting
            hint = of_setting(words, words.index(word), is_before and not found)
            raise Wrong(f"found `{word}`, expected a setting like X=5 or C=00F{hint}", word)
        try:
            found.append(setting(parts[1], parts[2], parts[3], is_before))
        except Wrong as why:
            raise Wrong(str(why), word) from why
        first = before.setdefault(found[-1].name, word)
        if len(before) < len(found):
            raise Wrong(f"found two settings of {found[-1].name}, `{first}` and `{word}`, expected one", word)
    return found
