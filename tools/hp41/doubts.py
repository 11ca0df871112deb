"""Doubts about programs that are imported: what may be meant otherwise, and what does not come back the same on export. Each doubt has a
name, which `tools/import --accept NAME` accepts. The names are in the table of docs/OLD-PROGRAMS.md, section "Doubts"."""
import re
from dataclasses import dataclass, replace
from typing import Dict, Iterable, Iterator, List, Tuple, Union

from .documents import codes_of, section_of, tables_of
from .matches import whole
from .records import is_end, length_at

DOCUMENT, SECTION = "OLD-PROGRAMS.md", "Doubts"

# The names of doubts.
LINE_NUMBER, CALL, MODULE, PAGE, SIGMA, COMMA = "line-number", "call", "module", "page", "sigma", "comma"
APPEND, CHARACTER, NUMBER, NUMBER_FORM, OPERAND = "append", "character", "number", "number-form", "operand"
NULLS, DISTANCE, PRIVATE, OPEN, COMMENT = "nulls", "distance", "private", "end", "comment"

# The states of a file.
IN, DOUBTFUL, NOT_IN = "in", "in, with doubts", "not in"

# The most places that are printed for a name.
MOST_PLACES = 4

# A number as keys type it, all signs that a number may have, and its parts.
TYPED = re.compile(r"-?[0-9]*\.?[0-9]*(?:E-?[0-9]*)?")
NUMERIC = re.compile(r"(?!NEG\Z)[-0-9.E]+")
PARTS = re.compile(r"-?([0-9]*)\.?([0-9]*)(?:E-?([0-9]*))?")
THOUSAND_OF_POINT = re.compile(r"[1-9][0-9]{0,2}\.[0-9]{3}")
MOST_DIGITS, MOST_OF_EXPONENT = 10, 2

# A sign of sigma that was typed as E.
E_AND_SIGN = re.compile(r"[Eeᴇ]\s*([+-])")

# Characters that no key of the calculator types, and that listings write for others.
ODD = {"#": "for the unequal sign write \\1D", "`": "for a quote write '", "{": "for ( write (", "}": "for ) write )",
       "|": "for the append sign write \\7F"}
IN_QUOTES = re.compile(r'(?:>|[A-Z]+ )?"(.*)"')

FLAG = re.compile(r"(SF|CF|FS\?|FC\?|FS\?C|FC\?C) ([0-9]{2,3})")
OF_ONE_DIGIT = re.compile(r"(FIX|SCI|ENG|TONE) ([0-9]{2,3})")
OF_THREE_DIGITS = re.compile(r"\S+ (?:IND )?([0-9]{3})")
OF_A_LETTER = re.compile(r"(?!LBL|GTO|XEQ)([^\s\"]+) (?:IND )?([A-J])")
LAST_FLAG, FIRST_FIXED_FLAG = 55, 30

# The first byte of numbers, and the bit of the last byte of an END that makes a program private.
OF_NUMBERS, PRIVATE_BIT = range(0x10, 0x1D), 0x40
LONGEST_NUMBER = 16
# What the reader of bar code notes.
PRIVATE_ROWS = "its rows are those of a private program"


@dataclass(frozen=True)
class Doubt:
    """A doubt: its name, the line and the column, both counted from 1, and what it is about. `program` is the number of the program in a
    file of bytes, in which the column is the byte of the line."""

    name: str
    line: int
    column: int
    text: str
    program: int = 1

    def told(self, path: str) -> str:
        """Returns the doubt for a message."""
        of = "" if self.program == 1 else f" (program {self.program})"
        return f"{path}{of}:{self.line}:{self.column}: doubt: {self.text} [{self.name}]"

    def noted(self, path: str) -> str:
        """Returns the text of a doubt that is accepted."""
        of = "" if self.program == 1 else f" (program {self.program})"
        return f"{path}{of}:{self.line}: {self.text}"


class Doubtful(str):
    """A remark on how a line was read that is a doubt with this name."""

    name = ""


def doubtful(name: str, text: str) -> Doubtful:
    """Returns a remark that is a doubt."""
    found = Doubtful(text)
    found.name = name
    return found


def known_names() -> List[str]:
    """Returns the names of all doubts, from the table of the document."""
    return [codes_of(row[0])[0] for row in tables_of(section_of(DOCUMENT, SECTION))[0]]


def parted(doubts: Iterable[Doubt], accepted: Iterable[str]) -> Tuple[List[Doubt], List[Doubt]]:
    """Returns the doubts that are not accepted, and those that are, by their lines."""
    found = sorted(doubts, key=lambda doubt: (doubt.program, doubt.line, doubt.column))
    names = set(accepted)
    return [one for one in found if one.name not in names], [one for one in found if one.name in names]


def summed(doubts: Iterable[Doubt]) -> str:
    """Returns the names of doubts with their lines."""
    places: Dict[str, List[str]] = {}
    for doubt in doubts:
        places.setdefault(doubt.name, []).append(f"{doubt.line}{f' of program {doubt.program}' if doubt.program > 1 else ''}")
    return ", ".join(f"{name} ({in_words(list(dict.fromkeys(of)))})" for name, of in places.items())


def in_words(names: List[str]) -> str:
    """Returns lines in words."""
    if len(names) > MOST_PLACES:
        names = [*names[:MOST_PLACES - 1], f"{len(names) - MOST_PLACES + 1} more"]
    return f"line{'s' if len(names) > 1 else ''} {', '.join(names[:-1])}{' and ' if len(names) > 1 else ''}{names[-1]}"


# Lines.

def of_line(text: str, comma_is_point: bool = False) -> Iterator[Tuple[str, str]]:
    """Yields the doubts about a line that the bench reads: the name of each, and what it is about. `comma_is_point` says that numbers of
    its listing have decimal commas."""
    if NUMERIC.fullmatch(text):
        yield from of_number(text, comma_is_point)
    yield from of_operand(text)


def of_listed(line: str, text: str) -> Iterator[Tuple[str, str, str]]:
    """Yields the doubts about a line of a listing, from which the bench's text was made: the name of each, the part of the line that it is
    about, and a reason. Bytes have none of these doubts."""
    sigma = E_AND_SIGN.fullmatch(line)
    if sigma:
        yield SIGMA, line, f"read as the number {text}; for the function of statistics write S{sigma[1]}"
    if text.startswith('"|-'):
        yield APPEND, "|-", f'a text that begins with |-; to append, write >"{text[3:]}'
    quoted = IN_QUOTES.fullmatch(text)
    begin = 2 if text.startswith('"|-') else 0
    for sign in dict.fromkeys(letter for letter in (quoted[1][begin:] if quoted else "") if letter in ODD):
        yield CHARACTER, sign, f"no key types {sign}; {ODD[sign]}"


def of_number(text: str, comma_is_point: bool) -> Iterator[Tuple[str, str]]:
    """Yields the doubts about a number."""
    if not TYPED.fullmatch(text):
        yield NUMBER_FORM, why_untyped(text)
        return
    before, behind, exponent = whole(PARTS, text).groups()
    if comma_is_point and THOUSAND_OF_POINT.fullmatch(text.lstrip("-")):
        yield COMMA, f"the point is read as the decimal point; if it separates thousands, write {text.replace('.', '')}"
    digits = len(before.lstrip("0") + behind)
    if digits > MOST_DIGITS:
        yield NUMBER, f"a number with {digits} digits; a calculator takes {MOST_DIGITS}"
    if exponent and len(exponent) > MOST_OF_EXPONENT:
        cut = text[:len(text) - len(exponent) + MOST_OF_EXPONENT]
        yield NUMBER, f"an exponent has two digits, so this is {cut}"


def why_untyped(text: str) -> str:
    """Returns why no keys type a number."""
    _, _, exponent = text.partition("E")
    if not re.search("[0-9E]", text):
        return "signs of a number without digits; if this is a rule between lines, begin it with ;"
    what = ("two exponents" if "E" in exponent else "a point in its exponent" if "." in exponent else
            "two points" if text.count(".") > 1 else "a minus among its digits")
    return f"a number with {what}, kept as it is; a calculator reads it digit by digit"


def of_operand(text: str) -> Iterator[Tuple[str, str]]:
    """Yields the doubts about the operand of a line."""
    flag, digit, long = FLAG.fullmatch(text), OF_ONE_DIGIT.fullmatch(text), OF_THREE_DIGITS.fullmatch(text)
    letter = OF_A_LETTER.fullmatch(text)
    if flag and int(flag[2]) > LAST_FLAG:
        yield OPERAND, f"a calculator has the flags 00 to {LAST_FLAG}"
    elif flag and flag[1] not in ("FS?", "FC?") and int(flag[2]) >= FIRST_FIXED_FLAG:
        yield OPERAND, f"no line of a calculator changes the flags {FIRST_FIXED_FLAG} to {LAST_FLAG}"
    elif digit and int(digit[2]) > 9:
        yield OPERAND, f"keys type 0 to 9 after {digit[1]}"
    elif long:
        yield OPERAND, "keys type 00 to 99; this operand is synthetic"
    elif letter:
        yield OPERAND, f"keys type no {letter[2]} after {letter[1]}; if it is a register of another calculator, write a number"


# Bytes.

def of_bytes(data: bytes) -> Iterator[Doubt]:
    """Yields the doubts about bytes of programs: nulls that are removed, distances that are wrong without them, private ENDs, and an END
    that is missing. The column is that of the byte in its line."""
    at, program, line, jumps, removed = 0, 1, 0, [], False
    end = len(data.rstrip(b"\0"))
    while at < end:
        length = width_of(data, at)
        if data[at] == 0:
            length = nulls_at(data, at)
            if not is_separator(data, at, length):
                removed = True
                yield Doubt(NULLS, max(line, 1), 1, f"{length} null{'s' if length > 1 else ''} at byte {at}, after line {line}, "
                            f"{'are' if length > 1 else 'is'} removed", program)
        else:
            line += 1
            jumps += [(line, at)] if has_distance(data, at) else []
        if is_end(data, at) and data[at]:
            if data[at + 2] & PRIVATE_BIT:
                yield Doubt(PRIVATE, line, 3, private_end(data, at, end), program)
            yield from wrong_distances(data, jumps if removed else [], program)
            program, line, jumps, removed = program + 1, 0, [], False
        at += length
    yield from wrong_distances(data, jumps if removed else [], program)
    if line:
        yield Doubt(OPEN, line, 1, f"the bytes end at byte {end}, after line {line}, without an END: is the rest of the program missing? "
                    "One is added", program)


def wrong_distances(data: bytes, jumps: List[Tuple[int, int]], program: int) -> Iterator[Doubt]:
    """Yields the doubts about the jumps of a program of which nulls are removed."""
    for line, at in jumps:
        own = data[at:at + length_at(data, at)].hex(" ").upper()
        yield Doubt(DISTANCE, line, 1 if data[at] >= 0xD0 and data[at] & 0xF else 2,
                    f"byte {at}: the distance in {own} is kept, but it no longer leads to its label, because nulls were removed from the "
                    "program; on a calculator, execute PACK, so that the label is searched for again", program)


def private_end(data: bytes, at: int, end: int) -> str:
    """Returns what happens to a private END."""
    own = data[at:at + 3].hex(" ").upper()
    return (f"the private END {own} at byte {at} becomes C0 00 0D, which is not private" if at + 3 >= end else
            f"the END {own} at byte {at} is private, which the bench ignores")


def width_of(data: bytes, at: int) -> int:
    """Returns how many bytes the line at `at` has. A number has up to sixteen."""
    if data[at] not in OF_NUMBERS:
        return length_at(data, at)
    last = at
    while last < len(data) and data[last] in OF_NUMBERS and last - at < LONGEST_NUMBER:
        last += 1
    return last - at


def nulls_at(data: bytes, at: int) -> int:
    """Returns how many nulls begin at `at`."""
    return len(data[at:]) - len(data[at:].lstrip(b"\0"))


def is_separator(data: bytes, at: int, length: int) -> bool:
    """Returns whether nulls are the one null between two numbers."""
    return length == 1 and at > 0 and data[at - 1] in OF_NUMBERS and at + 1 < len(data) and data[at + 1] in OF_NUMBERS


def has_distance(data: bytes, at: int) -> bool:
    """Returns whether a jump with a distance begins at `at`."""
    first = data[at]
    if 0xB1 <= first <= 0xBF:
        return at + 1 < len(data) and data[at + 1] != 0
    return 0xD0 <= first <= 0xEF and at + 2 < len(data) and (first & 0xF or data[at + 1]) != 0


def at_places(doubts: Iterable[Tuple[str, str]], line: int, text: str, program: int = 1, column: int = 1) -> Iterator[Doubt]:
    """Yields doubts about a line with its text."""
    for name, why in doubts:
        yield Doubt(name, line, column, f"{text} ({why})", program)


def moved(doubt: Doubt, line: Union[int, None] = None, column: Union[int, None] = None) -> Doubt:
    """Returns a doubt at another place."""
    return replace(doubt, line=doubt.line if line is None else line, column=doubt.column if column is None else column)
