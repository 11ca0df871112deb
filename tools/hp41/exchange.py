"""Listings of other programs: Free42, hp41uc and V41. Reads what their lines have in common with no other listing, and writes them.
docs/OLD-PROGRAMS.md has their layouts; the other spellings are those of docs/PROGRAMS.md."""
import re
from typing import Callable, Dict, List, NamedTuple, Tuple

from .counts import counted

# The head that Free42 writes before each program, with the number of its bytes.
HEAD = re.compile(r"\s*(?:0+\s+)?\{\s*([0-9]+)-Byte Prgm\s*\}\s*", re.I)
CODE = re.compile(r"\\x([0-9A-Fa-f]{2})|\\\\|\\\"")
CODES = {"\\\\": "\\5C", '\\"': "\\22"}
QUOTED = re.compile(r'((?:LBL|GTO|XEQ|W) |>)?"(.*)"')
STACK = re.compile(r"([^\s\"]+ (?:IND )?)([TZYXL])")
ARITHMETIC = re.compile(r"ST([-+*/] .*)")
NUMBER = re.compile(r"(-?[0-9.]*)E(-?[0-9]*)")
END = 3

# The names that Free42 writes if they are not those of the bench.
FREE42 = {"S+": "Σ+", "S-": "Σ-", "CLS": "CLΣ", "X<=Y?": "X≤Y?", "X<=0?": "X≤0?", "X#Y?": "X≠Y?", "X#0?": "X≠0?", "ENTER^": "ENTER",
          "X^2": "X↑2", "Y^X": "Y↑X", "E^X": "E↑X", "10^X": "10↑X", "E^X-1": "E↑X-1", "R^": "R↑", "RDN": "R↓", "P-R": "→REC",
          "R-P": "→POL", "D-R": "→RAD", "R-D": "→DEG", "HMS": "→HMS", "HR": "→HR", "DEC": "→DEC", "OCT": "→OCT", "*": "×", "/": "÷",
          "CHS": "+/-", "INT": "IP", "FRC": "FP", "FACT": "N!"}


class Count(NamedTuple):
    """The number of bytes in the head of a program: the number of its line, the line, and the lines of the program after it."""

    line: int
    text: str
    bytes: int
    last: int


def counts_in(lines: List[str]) -> List[Count]:
    """Returns the counts in a listing of Free42. Lines are counted from 1."""
    heads = [(number, found) for number, line in enumerate(lines, 1) for found in [HEAD.fullmatch(line)] if found]
    lasts = [number - 1 for number, _ in heads[1:]] + [len(lines)]
    return [Count(number, found[0].strip(), int(found[1]), last) for (number, found), last in zip(heads, lasts)]


def wanted_counts(lines: List[Tuple[str, bytes]]) -> List[int]:
    """Returns the numbers of bytes that a head may have for these lines of a program, each with its bytes. The END may be counted or not,
    and a number may have a null after it always, or only before another number."""
    lines = [(text, data.rstrip(b"\0") if is_number(data) else data) for text, data in lines if text not in ("END", ".END.")]
    total = sum(len(data) for _, data in lines)
    numbers = [is_number(data) for _, data in lines]
    between = sum(one and other for one, other in zip(numbers, numbers[1:]))
    return sorted({total + nulls + end for nulls in (between, sum(numbers)) for end in (0, END)})


def is_number(data: bytes) -> bool:
    """Returns whether a line is a number, by its first byte."""
    return 0x10 <= data[0] <= 0x1C


def wrong_counts(lines: List[str], program: List[Tuple[int, str]],
                 bytes_of: Callable[[List[str]], List[Tuple[str, bytes]]]) -> List[Tuple[int, str]]:
    """Returns an error for each head of Free42 whose count is wrong, with the number of its line. `program` has the texts of the lines
    after their numbers, and `bytes_of` returns lines with their bytes."""
    errors = []
    for count in counts_in(lines):
        texts = [text for number, text in program if count.line < number <= count.last and text != ".END."]
        wanted = wanted_counts(bytes_of(texts) if texts else [])
        if count.bytes not in wanted:
            errors.append((count.line, f"`{count.text}`: found {counted(count.bytes, '{} byte', '{} bytes')} in the head, expected "
                                       f"{wanted[0]} for the lines below ({wanted[-1]} with nulls after numbers and the END): a line is "
                                       "missing or changed"))
    return errors


# Reading.

def read_hp41uc(text: str) -> str:
    """Returns a listing of hp41uc with the codes of characters that the bench has."""
    return "\n".join(CODE.sub(lambda found: CODES.get(found[0]) or f"\\{found[1].upper()}", line) if '"' in line else line
                     for line in text.split("\n"))


def read_v41(text: str) -> str:
    """Returns a listing of V41 without the heads of its printer, PRP and a name, which become empty lines."""
    return "\n".join("" if re.fullmatch(r"\s*PRP(?:\s.*)?", line, re.I) else line for line in text.split("\n"))


def read_free42(text: str) -> str:
    """Returns a listing of Free42 with [LF] and [ESC] in texts as codes. Its heads stay; wrong_counts compares them."""
    return "\n".join(line.replace("[LF]", "\\0A").replace("[ESC]", "\\1B") if '"' in line else line for line in text.split("\n"))


READERS: Dict[str, Callable[[str], str]] = {"free42": read_free42, "hp41uc": read_hp41uc, "v41": read_v41}


# Writing.

def numbered(lines: List[str]) -> List[str]:
    """Returns lines with numbers of at least two digits. A label has a sign between its number and its text."""
    width = max(2, len(str(len(lines))))
    return [f"{at:0{width}} {line}" for at, line in enumerate(lines, 1)]


def write_free42(lines: List[Tuple[str, bytes]]) -> List[str]:
    """Returns the lines of a program as Free42 exports them."""
    texts = [re.sub(r"\A([0-9]+) LBL ", "\\1▸LBL ", line) for line in numbered([of_free42(text) for text, _ in lines])]
    return [f"00 {{ {wanted_counts(lines)[0]}-Byte Prgm }}", *texts]


def of_free42(text: str) -> str:
    """Returns a line as Free42 spells it. Lines that Free42 does not have are not changed."""
    if text in FREE42:
        return FREE42[text]
    quoted = QUOTED.fullmatch(text)
    if quoted:
        before = "├" if quoted[1] == ">" else quoted[1] or ""
        return f'{before}"{quoted[2]}"'.replace("\\0A", "[LF]").replace("\\1B", "[ESC]")
    number = NUMBER.fullmatch(text)
    if number and number[1] not in ("", "-"):
        return f"{number[1]}ᴇ{number[2]}"
    text = ARITHMETIC.sub(lambda found: f"STO{found[1]}", text) if ARITHMETIC.fullmatch(text) else text
    stack = STACK.fullmatch(text)
    is_label = text.startswith(("LBL ", "GTO ", "XEQ ")) and " IND " not in text
    return f"{stack[1]}ST {stack[2]}" if stack and not is_label else text


def write_hp41uc(lines: List[Tuple[str, bytes]]) -> List[str]:
    """Returns the lines of a program as hp41uc writes them, without numbers."""
    return [re.sub(r"\\([0-9A-F]{2})", r"\\x\1", text) for text, _ in lines]


def write_v41(lines: List[Tuple[str, bytes]]) -> List[str]:
    """Returns the lines of a program as V41's printer lists them."""
    name = next((found[1] for text, _ in lines for found in [re.fullmatch(r'LBL "(.*)"', text)] if found), None)
    texts = [re.sub(r'\A>"', '⊢"', text) for text, _ in lines]
    texts = [re.sub(r"\A([0-9]+) LBL ", "\\1♦LBL ", f" {line}".lstrip()) for line in numbered(texts)]
    return [*([f'PRP "{name}"'] if name else []), *texts]


WRITERS: Dict[str, Callable[[List[Tuple[str, bytes]]], List[str]]] = {
    "free42": write_free42, "hp41uc": write_hp41uc, "v41": write_v41}
