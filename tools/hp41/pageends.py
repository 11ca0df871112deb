"""Instructions that begin with the last word of a page. `list` ends with this word, but a step reads the second word from the next page."""
from __future__ import annotations

from typing import Callable, Optional

from .stubs import LDI

# The last place of a page, and how the bench lists a word that is cut from the next one.
LAST, CUT = "FFF", "CON "

# How many words are listed before an address, and from it on.
WORDS_BEFORE, WORDS_BEHIND = 16, 32


def is_cut(at: str, text: str) -> bool:
    """Returns whether a word that is listed at an address is the first of two, and the page ends after it."""
    word = int(text[:3], 16)
    return at.endswith(LAST) and text[9:].startswith(CUT) and (word == LDI or word & 3 == 1)


def after(at: str) -> str:
    """Returns the address after another one."""
    return f"{int(at, 16) + 1 & 0xFFFF:04X}"


def joined(row: list[str], read: Callable[[str], list[str]], listed: Callable[[str], Optional[str]]) -> list[str]:
    """Returns a row of the listed words, with the address, the label, and the words and the text. If its instruction is cut, it gets its
    second word: `read` lists the word at an address, nothing if no module is plugged there, and `listed` the instruction of two words."""
    at, label, text = row
    found = read(after(at)) if is_cut(at, text) else []
    return [at, label, (listed(f"{text[:3]} {found[0][6:9]}") if found else None) or text]


def why_cut(at: str, text: str) -> str:
    """Returns why the instruction at an address, whose second word cannot be read, is refused."""
    place = after(at)
    where = "in pages 0 to 3, HP's own ROM" if place < "4000" else "where no module is plugged"
    refusal = "SystemRom (08)" if place < "4000" else "EmptyPage (09)"
    return f"{text[:3]} is the first of two words, and the second one is at {place}, {where}: a step is refused as {refusal}."


def lists_at(at: int) -> list[bytes]:
    """Returns the commands that list the words around an address. The words before it are listed from several start addresses, because
    instructions have one word or two."""
    start, end = at & 0xF000, (at | 0x0FFF) + 1
    begins = sorted({max(start, at - WORDS_BEFORE + skip) for skip in range(4)} - {at})
    return [b"list %04X %d" % (begin, at - begin) for begin in begins] + [b"list %04X %d" % (at, min(WORDS_BEHIND, end - at))]
