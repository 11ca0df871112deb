"""The decks of tools/play that load programs: from several files, with the size that their lines need, and with lines replaced that are to
be skipped."""
from __future__ import annotations

import os
import re
import subprocess
from itertools import zip_longest
from typing import TYPE_CHECKING, Optional, Union

from . import TOOLS
from .decks import NO_ANSWER, Failure, answered, block, bytes_of, items_of, lines_of, refused, shown, words_of

if TYPE_CHECKING:
    from .functions import Functions

IMPORT = os.path.join(TOOLS, "import")
DECK = ".deck"

# What --size may be, apart from a number.
AUTO = "auto"

# Lines that do nothing but turn stack lift on, as most lines do. The first replaces a line that is skipped, the second any TONE.
NOTHING, SILENCE = "ADV", "TONE 09"
TONE = re.compile(r"TONE (?!0[0-9]\Z).*")


def is_deck(path: str) -> bool:
    """Returns whether a file is a deck, by its name."""
    return path.endswith(DECK)


# A part of a deck: its files, and its bytes.
Part = tuple[list[str], bytes]


def imported(files: list[str], memory: str, size: Optional[int]) -> bytes:
    """Returns the deck that tools/import makes of files."""
    words = ["--quiet", "--memory", memory, *([] if size is None else ["--size", str(size)])]
    ran = subprocess.run([IMPORT, *words, "--", *files], stdout=subprocess.PIPE)
    if ran.returncode == NO_ANSWER:
        raise Failure("./bench gave no answer: see its message above", NO_ANSWER)
    if ran.returncode:
        raise Failure(f"{', '.join(files)}: cannot be imported: see the messages of tools/import above")
    return ran.stdout


def parts_of(files: list[str], memory: str, size: Optional[int]) -> list[Part]:
    """Returns the parts of the deck of files, each with its files: decks as they are, and what tools/import makes of the files between
    them."""
    parts: list[Part] = []
    together: list[str] = []
    for path in [*files, None]:
        if path is not None and not is_deck(path):
            together.append(path)
            continue
        if together:
            parts.append((together, imported(together, memory, None if any(data for _, data in parts) else size)))
            together = []
        if path is not None:
            parts.append(([path], bytes_of(path)))
    return [(own, data if data.endswith(b"\n") or not data else data + b"\n") for own, data in parts]


def lines_in(deck: bytes, memory: str) -> list[str]:
    """Returns the texts of the lines of program memory after a deck."""
    return [line[5:].decode("latin-1") for line in answered(deck + b"show lines\n", memory)[1][-1][2]]


def size_for(deck: bytes, memory: str) -> int:
    """Returns the number of data registers for the programs of a deck, which has size 0: as many as their lines name, or as many as there
    is room for, if they use registers by IND."""
    from .catalogue import size_of
    from .programs import greatest_size
    size, is_indirect = size_of(lines_in(deck, memory))
    most = greatest_size(deck.split(b"\n", 1)[1], memory)
    if most is not None and size > most:
        raise Failure(f"--size auto: the lines name registers up to R{size - 1:02}, which need SIZE {size:03}, but the programs leave room "
                      f"for SIZE {most:03}")
    return most if is_indirect and most is not None else size


class Skips:
    """The functions to skip. `names` are spelled as in a listing; `any_tone` replaces tones that the bench does not have."""

    def __init__(self, names: list[str], any_tone: bool) -> None:
        """Takes the names without the spaces around them."""
        self.names, self.any_tone = [name.strip() for name in names if name.strip()], any_tone
        self.found: set[str] = set()

    def replaced(self, text: str, labels: set[str], functions: Functions) -> str:
        """Returns a line, or the one that replaces it."""
        called = re.fullmatch(r'XEQ "(.*)"', text)
        name = functions.names.get(text) or (called[1] if called and called[1] not in labels else text.split(" ")[0])
        for asked in self.names:
            if asked in (text, name) and not text.startswith(('"', '>"', "LBL ")):
                self.found.add(asked)
                return NOTHING
        if self.any_tone and TONE.fullmatch(text):
            return NOTHING if " IND " in text else SILENCE
        return text


def with_skips(deck: bytes, skips: Skips, memory: str) -> tuple[bytes, dict[int, str]]:
    """Returns a deck in which one block has the lines of all programs, with some of them replaced. Returns also the texts of those that are
    skipped, by their numbers, counted from 0."""
    from .functions import Functions
    from .spellings import read_tables
    texts = lines_in(deck, memory)
    labels = {text[5:-1] for text in texts if text.startswith('LBL "')}
    functions = Functions(read_tables())
    new = [skips.replaced(text, labels, functions) for text in texts]
    missing = [name for name in skips.names if name not in skips.found]
    if missing:
        raise Failure(f"--skip {','.join(missing)}: found no such line: spell each function as in the listing, for example --skip SIN,Y^X")
    lines = lines_of(deck)
    rest = b"".join(b"".join(lines[first:last + 1]) for first, last in items_of(lines)
                    if words_of(lines[first])[0] not in (b"load", b"program"))
    for count in (0, 1):
        made = rest + block(b"program", [*(text.encode("latin-1") for text in new[:-1]), *[b"END"] * count])
        again = lines_in(made, memory)
        if again == new:
            break
    else:
        why = why_others(made, memory, new, again)
        raise Failure(f"--skip: the programs with other lines cannot be loaded: {why}: please report this with the files")
    return made, {at: text for at, (text, other) in enumerate(zip(texts, new))
                  if text != other and other == NOTHING and not TONE.fullmatch(text)}


def why_others(deck: bytes, memory: str, wanted: list[str], found: list[str]) -> str:
    """Returns the refusal of a deck that loads lines; or without one the first line that is another one."""
    refusals = refused(deck, memory)[1]
    if refusals:
        return refusals[0].refusal
    number, pair = next((number, pair) for number, pair in enumerate(zip_longest(wanted, found), 1) if pair[0] != pair[1])
    return f"line {number}: found `{pair[1] or ''}`, expected `{pair[0] or ''}`"


def check(deck: bytes, parts: list[Part], memory: str) -> None:
    """Raises Failure if the bench refuses a deck. Its parts have their files."""
    found = refused(deck, memory)[1]
    if found:
        lines = lines_of(deck)
        raise Failure("\n".join(f"{place_in(parts, first)}: `{shown(lines[first].strip())}`: {refusal}" for first, _, refusal in found))


def place_in(parts: list[Part], at: int) -> str:
    """Returns the file and number of a line of the deck, counted from 0. Lines that tools/import has made have no number."""
    for files, data in parts:
        count = len(lines_of(data))
        if at < count:
            return f"{files[0]}:{at + 1}" if is_deck(files[0]) else ", ".join(files)
        at -= count
    return ", ".join(files)


def front_of(files: list[str], memory: str, size: Union[int, str, None], skips: Skips) -> tuple[bytes, dict[int, str], Optional[int]]:
    """Returns the deck that loads the programs of files, the texts of the lines that are skipped, and the size that was chosen, or None."""
    decks = [path for path in files if is_deck(path)]
    if decks and (size is not None and is_deck(files[0]) or size == AUTO):
        raise Failure(f"{decks[0]}: --size cannot be used with a deck: write `size N` in its first line", 2)
    if decks and (skips.names or skips.any_tone):
        raise Failure(f"{decks[0]}: --{'skip' if skips.names else 'tone'} cannot be used with a deck: give the file of its program", 2)
    chosen = None
    parts = parts_of(files, memory, 0 if isinstance(size, str) else size)
    deck = b"".join(data for _, data in parts)
    check(deck, parts, memory)
    if size == AUTO:
        chosen = size_for(deck, memory)
        deck = b"size %d\n" % chosen + deck.split(b"\n", 1)[1]
        check(deck, parts, memory)
    skipped: dict[int, str] = {}
    if skips.names or skips.any_tone:
        deck, skipped = with_skips(deck, skips, memory)
    return deck, skipped, chosen
