"""Modules of keystroke programs: makes a page from programs with a table of functions, and reads the programs of such a page. The bench
decides which bytes a line has, and which line some bytes are."""
import re
from typing import Iterator, Optional, Union

from .decks import MAIN_START, Failure, block, hexadecimal, run
from .decks import ended as ended_early
from .programs import OF_NUMBERS, PIECE, is_cut, loadable, piece_of, whole_lines

PAGE_SIZE = 4096
MOST_FUNCTIONS = 64
LAST_NUMBER = 31

# From this place on, a calculator reads words of a page by itself.
ROOM = 0xFF4

# The END that archives have, and the bits of the first byte of a line and of the last byte of an END in a page.
END = bytes.fromhex("C0000D")
FIRST, LAST = 0x100, 0x200

# So many lines always fit into memory.
LINES = 100

# A line that is put after the lines in question: it has one byte, and is not a number.
SENTINEL, SENTINEL_BYTE = "BEEP", b"\x86"

LABEL = re.compile(r'LBL "(.*)"')
ENDS = re.compile(rb"(?=[\xc0-\xcd].[\x00-\xef])", re.S)
FINAL_END = re.compile(rb"[\xc0-\xcd].[\x20-\x3f\x60-\x7f\xa0-\xbf\xe0-\xef]", re.S)


# Lines and their bytes.

ProgramLine = tuple[str, bytes]


# The refused line, or the first line or byte of a refused block, counted from 0, and the refusal, for example `16 NoRoom`.
Refusals = list[tuple[int, str]]


def with_bytes(opener: bytes, lines: list[bytes]) -> Union[list[ProgramLine], str]:
    """Returns the lines that a block loads, each with its bytes; or the refusal of the block."""
    registers = range(0x1FF, MAIN_START - 1, -1)
    status, output = run(b"size 0\n" + block(opener, lines) + b"show lines\n"
                         + b"".join(b"show ram %03x\n" % at for at in registers))
    rows = output.decode().splitlines()
    if status not in (0, 1):
        raise Failure(ended_early(status, "when it was asked for the lines of a program"))
    if status:
        return next((row[2:] for row in rows if row.startswith("! ")), "refused")
    shown, memory = rows[:-len(registers)], bytes.fromhex("".join(row[4:] for row in rows[-len(registers):]))
    places = [int(row[:4]) for row in shown]
    found = [(row[5:], memory[at:behind]) for row, at, behind in zip(shown, places, places[1:])]
    # A null byte follows a number if another number follows.
    return [(text, data.rstrip(b"\0") if data[0] in OF_NUMBERS else data) for text, data in found]


def lines_of_texts(texts: list[str], refusals: Optional[Refusals] = None) -> Optional[list[ProgramLine]]:
    """Returns the lines of a listing with their bytes; None if the bench cannot read one of them. Its refusal is added to `refusals`."""
    found: list[ProgramLine] = []
    for at in range(0, len(texts), LINES):
        lines = with_bytes(b"program", [text.encode() for text in [*texts[at:at + LINES], SENTINEL]])
        if isinstance(lines, str):
            numbered = re.search(r" (\d+)\Z", lines)
            refusal = (at + int(numbered[1]) - 1, lines[:numbered.start()]) if numbered else (at, lines)
            ([] if refusals is None else refusals).append(refusal)
            return None
        found += [(text, END if text == "END" else data) for text, data in lines[:-1]]
    return found


def lines_of_program(data: bytes) -> Optional[list[ProgramLine]]:
    """Returns the lines in some bytes. An .END. at the end becomes an END. None if they are not lines."""
    front = data.rstrip(b"\0")[:-3]
    if not FINAL_END.fullmatch(data.rstrip(b"\0")[-3:]):
        return lines_of_bytes(data)
    lines = lines_of_bytes(front)
    return lines_of_bytes(data) if lines is None else [*lines, ("END", END)]


def lines_of_bytes(data: bytes, refusals: Optional[Refusals] = None) -> Optional[list[ProgramLine]]:
    """Returns the lines in some bytes without null bytes; None if they are not lines, or have an .END. inside. The refusal of the bench is
    added to `refusals`."""
    found: list[ProgramLine] = []
    at = 0
    while at < len(data):
        length = piece_of(data[at:])
        lines = with_bytes(b"load", hexadecimal(data[at:at + length] + SENTINEL_BYTE)) if length else "no line"
        if isinstance(lines, str):
            ([] if refusals is None else refusals).append((at, lines))
            return None
        found += lines[:-1]
        at += length
    return found


def programs_of(lines: list[ProgramLine]) -> list[list[ProgramLine]]:
    """Splits lines into programs, each with its END. If the last one has none, it gets that of archives."""
    programs: list[list[ProgramLine]] = [[]]
    for text, data in lines:
        programs[-1].append((text, data))
        if text == "END":
            programs.append([])
    if programs[-1]:
        programs[-1].append(("END", END))
    return [program for program in programs if program]


# Making a page.

class Module:
    """A module of programs: its words, its functions with names and offsets, and the lines of its source."""

    def __init__(self, number: int, programs: list[list[ProgramLine]]) -> None:
        """Makes a module from programs; a program is a list of lines with their bytes."""
        self.number = number
        self.rows: list[tuple[int, Optional[str], list[int]]] = []
        self.functions: list[tuple[str, int]] = []
        self.ends: list[int] = []
        # The names of the labels of each program.
        self.names = [[found[1] for found in map(LABEL.fullmatch, (text for text, _ in program)) if found] for program in programs]
        self.length = 2 + 2 * sum(map(len, self.names)) + 2
        for program in programs:
            self.add(program)
            self.ends.append(self.length)

    def add(self, program: list[ProgramLine]) -> None:
        """Adds a program: a null byte separates two numbers, the first byte of each line is marked, and so is the END."""
        last = None
        for text, data in program:
            words = [byte | (FIRST if at == 0 else 0) for at, byte in enumerate(data)]
            if text == "END":
                words[-1] |= LAST
            if last is not None and last[0] in OF_NUMBERS and data[0] in OF_NUMBERS:
                self.put(None, [0])
            name = LABEL.fullmatch(text)
            if name:
                self.functions.append((name[1], self.length))
            self.put(text, words)
            last = data

    def put(self, text: Optional[str], words: list[int]) -> None:
        """Adds the words of a line."""
        self.rows.append((self.length, text, words))
        self.length += len(words)

    def labels(self) -> dict[int, str]:
        """Returns a label of the source for each function: its name if that is possible and unique."""
        found: dict[int, str] = {}
        for at, (name, place) in enumerate(self.functions):
            label = name if re.fullmatch("[A-Z][0-9A-Z_]{0,11}", name) else f"F{at:02}"
            found[place] = next(one for one in (label, f"F{at:02}", f"F{at:02}_") if one not in found.values())
        return found

    def source(self) -> list[str]:
        """Returns the lines of a source for the page."""
        labels = self.labels()
        front = [f"CON {self.number:03X}", f"CON {len(self.functions):03X}", *(f"FOCAL :{label}" for label in labels.values()),
                 "CON 000", "CON 000"]
        lines = [f"        {text}" for text in front]
        for place, text, words in self.rows:
            label = f"{labels[place]}:" if place in labels else ""
            remark = f"; {text}" if text is not None else ""
            lines.append(f"{label:<7} CON {words[0]:03X}         {remark}".rstrip())
            lines += [f"        CON {word:03X}" for word in words[1:]]
        return lines

    def shown(self) -> list[str]:
        """Returns the lines that `show functions` prints for it."""
        return [f"XROM {self.number:02},{at:02} {name}" for at, (name, _) in enumerate(self.functions)]


# Reading a page.

def end_of(data: bytes) -> Optional[int]:
    """Returns how many of the first bytes are a program with its END or .END.; None if whole lines do not lead to one."""
    at = 0
    while True:
        places = [found.start() for found in ENDS.finditer(data, at, min(len(data), at + PIECE))]
        for first in range(0, len(places), 16):
            some = places[first:first + 16]
            good = next((place for place, is_good in zip(some, loadable([data[at:place] for place in some])) if is_good), None)
            if good is not None:
                return good + 3
        length = piece_of(data[at:])
        if not length or at + length >= len(data):
            return None
        at += length


def programs_in(page: str, image: bytes) -> list[tuple[list[ProgramLine], bytes]]:
    """Returns the programs of a module's page in the order of the page: for each program its lines with their bytes, and its bytes with
    the null bytes between them."""
    words = [image[at] << 8 | image[at + 1] for at in range(0, len(image), 2)]
    number, count = words[:2]
    if not (1 <= number <= LAST_NUMBER and 1 <= count <= MOST_FUNCTIONS):
        raise Failure(f"page {page} is not a module: it begins with {number:03X} {count:03X}, expected a number 001 to 01F and a "
                      "count 001 to 040")
    entries = [(at, (words[2 + 2 * at] & 0xF) << 8 | words[3 + 2 * at] & 0xFF) for at in range(count) if words[2 + 2 * at] & 0x200]
    if not entries:
        raise Failure(f"the module at page {page} has no function written in keystrokes: export it as source")
    data, behind = bytes(word & 0xFF for word in words), 0
    found: list[tuple[list[ProgramLine], bytes]] = []
    inside: dict[int, str] = {}
    for at, place in sorted(entries, key=lambda entry: entry[1]):
        if place in inside:
            raise Failure(f"XROM {number:02},{at:02}: the table entry points into the middle of a program line, at {page}{place:03X}: "
                          f"`{inside[place]}`")
        if place < behind:
            continue
        length = end_of(data[place:])
        if length is None:
            raise Failure(f"XROM {number:02},{at:02}: the program at {page}{place:03X} has no END: {why_none(data[place:])}")
        lines = lines_of_bytes(data[place:place + length - 3]) or []
        found.append(ended(data[place:place + length], lines))
        behind, inside = place + length, dict(inside_lines(data, place, found[-1][0]))
    return found


def inside_lines(data: bytes, place: int, lines: list[ProgramLine]) -> Iterator[tuple[int, str]]:
    """Yields the places inside these lines of a page, except those of their first bytes, each with its line. Null bytes may be between
    lines."""
    for text, own in lines:
        place += next(at for at, byte in enumerate(data[place:]) if byte)
        yield from ((at, text) for at in range(place + 1, place + len(own)))
        place += len(own)


def ended(data: bytes, lines: list[ProgramLine]) -> tuple[list[ProgramLine], bytes]:
    """Returns a program with an END in place of an .END."""
    end = END if data[-1] & 0x20 else data[-3:]
    return lines + [("END", end)], data[:-3] + end


def why_none(data: bytes) -> str:
    """Returns why bytes do not lead to an END: the first byte that does not begin a line, or that the page ends."""
    at = 0
    while at < len(data):
        length = whole_lines(data[at:at + PIECE])
        if not length:
            break
        at += length
    if at == len(data) or is_cut(data[at:]):
        return "the page ends before an END"
    return f"byte {data[at]:02X} at offset {at} of the program does not begin a line"
