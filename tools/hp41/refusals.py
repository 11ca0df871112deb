"""The refusals of a deck: the place of each, and the refused line of a block."""
import re
from typing import Optional

from .decks import (KEY_NOT_HELD, LONGEST_LINE, MARK_OF_UTF8, MARKS_OF_UTF16, MEMORY, Failure, block, is_skipped, lines_of, refused,
                    refused_key, shown, text_of, words_of)
from .programs import broken, whole_lines

BLANKS = b" \t"

# Refusals that name a line of their block.
OF_A_LINE = re.compile(r"! (?:3[0-5]|41) \w+ ([0-9]+)")

# Blocks whose refusals name no line: how such a block begins, and the refusals for which the line is searched.
OF_DIGITS = {b"words": b"words 8", b"image": b"image 8", b"load": b"load"}
BAD_NUMBER, BAD_IMAGE, LINE_TOO_LONG = "! 51 BadNumber", "! 04 BadImage", "! 53 LineTooLong"
BROKEN_PROGRAM = "! 14 BrokenProgram"

MOST_WORDS = 4096
IMAGE_SIZE = 2 * MOST_WORDS

# Characters that look like spaces.
BLANKS_THAT_ARE_NONE = re.compile("[\u00a0\u2000-\u200b\u202f\u205f\u3000]")


class Refused:
    """A refused command or block of a deck: its lines, counted from 0, and the refusal.

    `inner` is the refused line of the block if it is known, and `told` are remarks about it."""

    def __init__(self, lines: list[bytes], first: int, last: int, refusal: str, memory: str = MEMORY) -> None:
        """Finds the line of a block that the refusal names."""
        self.lines, self.first, self.last, self.refusal, self.memory = lines, first, last, refusal, memory
        numbered = OF_A_LINE.fullmatch(refusal)
        self.inner = first + int(numbered[1]) if numbered else None
        self.told: list[str] = []
        if refusal == LINE_TOO_LONG and first != last:
            self.inner = next(at for at in range(first, last + 1) if len(text_of(lines[at])) > LONGEST_LINE)
        if self.inner is not None and self.line() != self.line().rstrip(BLANKS):
            self.told.append("with spaces at its end")

    def place(self) -> str:
        """Returns the place of the command or block in words."""
        return f"line {self.first + 1}" if self.first == self.last else f"lines {self.first + 1}-{self.last + 1}"

    def name(self) -> str:
        """Returns the refusal without its details."""
        return " ".join(self.refusal.split()[:3])

    def at(self) -> int:
        """Returns the refused line: that of the block if it is known, otherwise the first one."""
        return self.first if self.inner is None else self.inner

    def inside(self) -> list[int]:
        """Returns the lines of the block, without comments and empty lines."""
        return [at for at in range(self.first + 1, self.last) if not is_skipped(self.lines[at])]

    def line(self) -> bytes:
        """Returns the text of the refused line."""
        return text_of(self.lines[self.at()])

    def opener(self) -> bytes:
        """Returns the first word of the command or block."""
        return (words_of(self.lines[self.first]) or [b""])[0]

    def words(self) -> list[bytes]:
        """Returns the words of the refused line. For a line of a source they begin after the label."""
        words = words_of(self.line())
        return words[1:] if self.inner is not None and words and words[0].endswith(b":") else words

    def word(self) -> bytes:
        """Returns the first of these words."""
        return (self.words() or [b""])[0]

    def sign(self) -> Optional[tuple[str, str]]:
        """Returns what a reader may not see in the line, and the name that docs/DECK.md has for it; None if there is no such thing."""
        line = self.line()
        if self.lines[0].startswith(MARKS_OF_UTF16):
            return "in UTF-16", "A byte order mark"
        if self.at() == 0 and line.startswith(MARK_OF_UTF8):
            return "after a byte order mark", "A byte order mark"
        if b"\r" in line:
            return "with CR", "CR alone as the line end"
        if BLANKS_THAT_ARE_NONE.search(line.decode(errors="replace")):
            return "with a character that looks like a space", "Characters that look like spaces"
        return None

    def shown(self) -> str:
        """Returns the refused line and the remarks about it."""
        line, sign = self.line(), self.sign()
        if sign and sign[0] == "in UTF-16":
            line = line.replace(b"\0", b"")
        told = self.told + ([sign[0]] if sign else [])
        behind = f" ({', '.join(told)})" if told else ""
        return (shown(line.strip(BLANKS)) + behind).lstrip(" ")

    def quoted(self) -> str:
        """Returns the refused line in backquotes, the refusal and the remarks, for an error message."""
        line, sign = self.line(), self.sign()
        if sign and sign[0] == "in UTF-16":
            line = line.replace(b"\0", b"")
        key = refused_key(self.lines, self.first, self.memory) if self.refusal == KEY_NOT_HELD.decode() else ""
        known = ", ".join(self.told + ([sign[0]] if sign else []) + ([key] if key else []))
        return f"`{shown(line.strip(BLANKS))}`: {self.refusal}{f': {known}' if known else ''}"

    def key(self) -> str:
        """Returns a line that says which key is refused; an empty text if the line has only one key."""
        found = refused_key(self.lines, self.first, self.memory)
        return f"\n  {found}" if found else ""


def refusals_of(deck: bytes, memory: str = MEMORY) -> tuple[int, list[Refused]]:
    """Returns the status of a deck and its refusals. For blocks of words or bytes, the refused line is searched."""
    lines = lines_of(deck)
    status, refusals = refused(deck, memory)
    found = [Refused(lines, *one, memory) for one in refusals]
    look_into_blocks(found)
    return status, found


def look_into_blocks(found: list[Refused]) -> None:
    """Finds the refused lines in blocks of words or bytes. The bench is asked for each line in a block of its own, and first for the
    first line of the block."""
    deck: list[bytes] = []
    places: dict[int, tuple[Refused, int]] = {}

    def ask(one: Refused, at: int, opener: bytes, lines: list[bytes]) -> None:
        """Adds a block with these lines to the deck, for a line of a refused block."""
        places[len(deck)] = (one, at)
        deck.extend(lines_of(block(opener, lines)))

    for one in found:
        if one.opener() == b"load" and one.refusal == BROKEN_PROGRAM:
            look_into_bytes(one)
    looked = [one for one in found if one.opener() in OF_DIGITS and one.refusal in (BAD_NUMBER, BAD_IMAGE)]
    for one in looked:
        ask(one, one.first, text_of(one.lines[one.first]), [])
        for at in one.inside():
            ask(one, at, OF_DIGITS[one.opener()], [text_of(one.lines[at])])
    if not looked:
        return
    try:
        answers = {places[first]: refusal for first, _, refusal in refused(b"".join(deck))[1]}
    except Failure:
        return
    for one in looked:
        if answers.get((one, one.first)) != BAD_NUMBER:
            look_into(one, {at: answers.get((one, at)) for at in one.inside()})


def look_into(one: Refused, answers: dict[int, Optional[str]]) -> None:
    """Finds the refused line of a block from the answers for each of its lines."""
    counts = {at: len(words_of(one.lines[at])) for at in answers}
    if one.refusal == BAD_IMAGE and one.opener() == b"image":
        # A single line of an image is always too short.
        parts = {at: bytes.fromhex(text_of(one.lines[at]).decode()) for at in answers}
        data = b"".join(parts.values())
        if len(data) == IMAGE_SIZE:
            wide = next(at for at in range(0, IMAGE_SIZE, 2) if data[at] > 3)
            one.inner = line_of(wide, {at: len(part) for at, part in parts.items()})
        else:
            one.told.append(f"found {len(data):,} bytes in the block, expected an image of {IMAGE_SIZE:,}")
    elif one.refusal in answers.values():
        one.inner = next(at for at, answer in answers.items() if answer == one.refusal)
    elif one.refusal == BAD_IMAGE:
        one.inner = line_of(MOST_WORDS, counts)
        one.told.append(f"found {sum(counts.values()):,} words in the block, expected at most {MOST_WORDS:,}")


def look_into_bytes(one: Refused) -> None:
    """Finds the refused line in a block of a program's bytes."""
    parts = {at: bytes.fromhex(text_of(one.lines[at]).decode()) for at in one.inside()}
    data = b"".join(parts.values())
    place = whole_lines(data)
    one.inner = line_of(place, {at: len(part) for at, part in parts.items()})
    if one.inner is not None:
        one.told.append(broken(data))


def line_of(number: int, counts: dict[int, int]) -> Optional[int]:
    """Returns the line that has the element with this number, counted from 0. `counts` has the number of elements of each line."""
    for at, count in counts.items():
        if number < count:
            return at
        number -= count
    return None
