"""Checks programs before they run: which lines are not supported, which calls lead nowhere, which names no keys can type, whether bytes
are lines, and how many data registers leave enough room. The bench decides all of this."""
import re
from typing import Container, Iterable, Optional, Sequence, Union

from .decks import MEMORY, Failure, answered, block, ended, hexadecimal, refused, run
from .doubts import CALL as NOWHERE
from .doubts import MODULE, PAGE
from .functions import Functions
from .typed import LONGEST_NAME, why_no_name

LEFT_OUT = "not supported, so these lines are refused when they are executed: "

# The most places that are printed for a line.
MOST_PLACES = 4

LOCAL = re.compile(r"(?:GTO|XEQ) ([0-9]{2,3}|[A-Za-z]|append)")
NAMED = re.compile(r'(?:GTO|XEQ) (".*")')
LABEL = re.compile(r'LBL "(.*)"')
# Lines that can call something that does not exist. For other lines, NONEXISTENT can only mean registers or flags.
CALL = re.compile(r'(?:GTO|XEQ) ".*"|XROM .*')

LONGEST_LINE_BYTES = 18

# So many bytes always fit into memory. And the bytes of numbers, and that of RTN.
PIECE, OF_NUMBERS, RTN = 2000, range(0x10, 0x1D), b"\x85"


# The place of a line in words, and a line with its place.
Place = Union[int, str]
Line = tuple[Place, str]


def listed(data: bytes) -> Optional[list[str]]:
    """Returns the texts of the lines in the bytes of a program, with `.END.`; None if the bench refuses the bytes."""
    status, output = run(b"size 0\n" + block(b"load", hexadecimal(data)) + b"show lines\n")
    return [line[5:] for line in output.decode().splitlines()] if status == 0 else None


# Lines.

def parted(lines: Iterable[Line]) -> list[list[Line]]:
    """Splits lines into programs at each END. A line is a place and a text."""
    program: list[Line] = []
    programs = []
    for place, text in lines:
        if text in ("END", ".END."):
            programs.append(program)
            program = []
        else:
            program.append((place, text))
    return [program for program in [*programs, program] if program]


def fates(texts: Iterable[str], front: bytes) -> tuple[set[str], set[str]]:
    """Returns which of these lines are not supported, and which are calls that lead nowhere. Each is executed alone, after the deck
    `front` that plugs pages."""
    asked = sorted(set(texts))
    deck = front + b"".join(b"reset\n" + block(b"program", [text.encode()]) + b"step\nshow display\n" for text in asked)
    status, answers = answered(deck)
    if status > 1:
        raise Failure(ended(status, "when it was asked to execute the lines"))
    steps = [answer for _, _, answer in answers[len(answers) - 4 * len(asked):]]
    left_out = {text for at, text in enumerate(asked) if steps[4 * at + 2] == [b"! 13 NotInProfile"]}
    nowhere = {text for at, text in enumerate(asked) if CALL.fullmatch(text) and steps[4 * at + 3] == [b"NONEXISTENT"]}
    return left_out, nowhere


def told(found: Iterable[Line]) -> str:
    """Returns lines with their places, each line once."""
    places: dict[str, list[Place]] = {}
    for place, text in found:
        places.setdefault(text, []).append(place)
    return ", ".join(f"{text} ({placed(of)})" for text, of in places.items())


def placed(places: Sequence[Place]) -> str:
    """Returns the places of a line in words."""
    names = [str(place) for place in places]
    if len(names) > MOST_PLACES:
        names[MOST_PLACES - 1:] = [f"{len(names) - MOST_PLACES + 1} more"]
    return f"line{'s' if len(names) > 1 else ''} {', '.join(names[:-1])}{' and ' if len(names) > 1 else ''}{names[-1]}"


def names_in(lines: Iterable[Line]) -> set[str]:
    """Returns the names of the labels in lines."""
    return {found[0].partition(" ")[2] for found in map(LABEL.fullmatch, (text for _, text in lines)) if found}


def name_called(text: str) -> Optional[str]:
    """Returns the name in quotes that a line calls; None if it calls none."""
    found = NAMED.fullmatch(text)
    return found[1] if found else None


class Judged:
    """What is noted about the lines of a file, and which of them lead nowhere."""

    def __init__(self, notes: list[str], lost: list[Line], called: set[str]) -> None:
        """Takes the notes, the lines that lead nowhere, and the names that only XEQ finds."""
        # Notes; the lines that lead nowhere, each with its place; and the names that GTO does not find, but XEQ does: functions of pages.
        self.notes, self.lost, self.called = notes, lost, called


def judged(lines: Sequence[Line], labels: set[str], front: bytes, functions: Functions) -> Judged:
    """Returns what is noted about the lines of a file. `labels` are all labels with names that memory will have, and the deck `front` plugs
    pages. Functions of modules are printed with their names."""
    asked = [text for _, text in lines if not text.startswith(('"', '>"', "LBL")) and not LOCAL.fullmatch(text)
             and name_called(text) not in labels]
    left_out, nowhere = fates(asked, front)
    lost = [line for program in parted(lines) for line in program if is_lost(line[1], program) or line[1] in nowhere]
    jumps = {f"XEQ {text[4:]}" for _, text in lost if text.startswith('GTO "')}
    called = {text[4:] for text in jumps - fates(jumps, front)[1]} if jumps else set()
    notes = []
    if left_out:
        notes.append(LEFT_OUT + told((place, functions.told(text)) for place, text in lines if text in left_out))
    names = [(place, found[1]) for place, text in lines for found in [LABEL.fullmatch(text)] if found]
    names = [(place, f'"{name}", {why_no_name(name)}') for place, name in names if why_no_name(name)]
    if names:
        notes.append(f"labels that no keys can call (keys type at most {LONGEST_NAME} letters): {told(names)}")
    return Judged(notes, lost, called)


def why_lost(text: str, program: Container[str], called: set[str], functions: Functions) -> tuple[str, str]:
    """Returns the name of the doubt about a line that leads nowhere, and what it is about. `program` has the lines of its program."""
    if text.startswith("XROM "):
        return MODULE, f"{functions.told(text)} (a function of a module that is not given with this file)"
    if not text.startswith('GTO "') or text[4:] not in called:
        own = " of its program" if LOCAL.fullmatch(text) else ""
        return NOWHERE, f"{text} (leads nowhere: no line{own} is LBL {text[4:]})"
    if f"LBL {text[4:]}" not in program:
        return PAGE, f"{text} (in a page, GTO finds no label with a name: write XEQ {text[4:]} and RTN, or put both programs into one " \
                     "and use a local label)"
    free = next(f"{number:02}" for number in range(1, 100) if f"LBL {number:02}" not in program)
    return PAGE, f"{text} (in a page, GTO finds no label with a name: write LBL {free} after LBL {text[4:]}, and GTO {free} here)"


def is_lost(text: str, program: Iterable[Line]) -> bool:
    """Returns whether a line calls a numeric or one-letter label that its program does not have."""
    found = LOCAL.fullmatch(text)
    return found is not None and f"LBL {found[1]}" not in (other for _, other in program)


# Bytes.

def loadable(prefixes: list[bytes]) -> list[bool]:
    """Returns which of these sequences of bytes are whole lines."""
    deck = b"".join(b"reset\n" + block(b"load", hexadecimal(data)) for data in prefixes)
    status, answers = answered(deck)
    if status > 1:
        raise Failure(ended(status, "when it was asked to load the bytes"))
    return [answer != [b"! 14 BrokenProgram"] for _, _, answer in answers[1::2]]


def whole_lines(data: bytes) -> int:
    """Returns how many of the first bytes are whole lines. A binary search over the lengths works, because no line is longer than 18
    bytes: among any 18 lengths below a good one there is a good one."""
    low, high = 0, len(data)
    while high - low > LONGEST_LINE_BYTES:
        middle = (low + high + LONGEST_LINE_BYTES) // 2
        ends = [middle - at for at in range(LONGEST_LINE_BYTES) if middle - at > low]
        good = [end for end, is_good in zip(ends, loadable([data[:end] for end in ends])) if is_good]
        low, high = (good[0], high) if good else (low, max(low, ends[-1] - 1))
    ends = list(range(low + 1, high + 1))
    good = [end for end, is_good in zip(ends, loadable([data[:end] for end in ends])) if is_good]
    return good[-1] if good else low


def piece_of(data: bytes) -> int:
    """Returns how many of the first bytes are whole lines and fit into memory. The last line is not a number that may continue."""
    if len(data) <= PIECE:
        return len(data)
    length = whole_lines(data[:PIECE])
    while length and data[length - 1] in OF_NUMBERS:
        length = whole_lines(data[:length - 1])
    return length


def pieces_of(data: bytes) -> list[bytes]:
    """Splits whole lines, which may be too long for memory, into pieces that fit."""
    pieces, at = [], 0
    while at < len(data):
        pieces.append(data[at:at + (piece_of(data[at:]) or PIECE)])
        at += len(pieces[-1])
    return pieces


def listed_in_pieces(data: bytes) -> Optional[list[str]]:
    """Returns the texts of whole lines, which may be too long for memory; None if an .END. is among them."""
    texts: list[str] = []
    for piece in pieces_of(data):
        found = listed(piece + RTN)
        if found is None:
            return None
        texts += found[:-2]
    return texts


def broken(data: bytes) -> str:
    """Returns where bytes that the bench refuses are not a line, and the line before them."""
    at = whole_lines(data)
    texts = listed_in_pieces(data[:at])
    if texts is None:
        return f".END. ends at byte {at} of {len(data)}, before the last line: separate programs with END, C0 00 0D"
    line = numbered(enumerate(texts, 1))[-1] if texts else None
    behind = f"the line before it is line {line[0]}, `{line[1]}`" if line else "no line is before it"
    what = "begins an incomplete line" if is_cut(data[at:]) else "does not begin a line"
    return f"byte {data[at]:02X} at offset {at} {what}; {behind}"


def is_cut(data: bytes) -> bool:
    """Returns whether bytes are the beginning of one line."""
    return len(data) < LONGEST_LINE_BYTES and any(loadable([data + b"A" * more for more in range(1, LONGEST_LINE_BYTES)]))


def numbered(lines: Iterable[tuple[Place, str]]) -> list[tuple[str, str]]:
    """Returns lines with their numbers in their programs. From the second program on, the number of the program follows."""
    program, number, found = 1, 0, []
    for _, text in lines:
        number += 1
        found.append((str(number) if program == 1 else f"{number} of program {program}", text))
        if text == "END":
            program, number = program + 1, 0
    return found


# Room.

def greatest_size(deck: bytes, memory: str = MEMORY) -> Optional[int]:
    """Returns the greatest number of data registers with which all programs of a deck fit; None if they do not fit with none."""
    most = int(memory) - 1
    sizes = range(most, -1, -1)
    front = b"size 0\n" + deck
    status, found = refused(front + b"".join(f"size {size}\n".encode() for size in sizes), memory)
    first = front.count(b"\n")
    if status > 1 or any(at < first for at, _, _ in found):
        return None
    return next(size for size in sizes if first + most - size not in {at for at, _, _ in found})
