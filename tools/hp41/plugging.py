"""Plugs the words of a source or a project for calls of functions that are tried, and shows which banks are active before and after them.

A call begins in bank 1. So for a function in another bank, free places of its page have words that activate this bank, and then jump to
the function. The words at another free place say which bank is active."""
from __future__ import annotations

import re
from typing import Iterable

from .codes import ADDRESSES, Code

IN_A_LINE, PAGE_SIZE, FIRST_POLLED = 40, 4096, 0xFF4

# The words of ENBANK1 to ENBANK4, and the line of `list` with one of them.
ENBANK = (0x100, 0x180, 0x140, 0x1C0)
OF_BANK = re.compile("([0-9A-F])[0-9A-F]{3}  (100|180|140|1C0) .*")

# How many places are needed, and which one says what bank is active. For each bank but the first there are three places before it.
NEEDED, SHOWS = 16, 15


def block(opener: str, words: Iterable[int]) -> str:
    """Returns the block that plugs words."""
    words = list(words)
    rows = [" ".join(f"{word:03X}" for word in words[at:at + IN_A_LINE]) for at in range(0, len(words), IN_A_LINE)]
    return "".join(f"{row}\n" for row in [f"words {opener}", *rows, "end"])


def free_places(code: Code, page: int) -> int | None:
    """Returns the first of the free places in all banks of a page; None if there are too few."""
    banks = [bank for bank in code.banks if bank.page == page]
    first = max(bank.size for bank in banks)
    used = [place for bank in banks for place, word in enumerate(bank.words) if place >= first and word]
    return first if first + NEEDED <= min([FIRST_POLLED, *used]) else None


def pages_with_banks(code: Code) -> list[int]:
    """Returns the pages of a project that have other banks than bank 1."""
    return sorted({bank.page for bank in code.banks if bank.number > 1})


def jump(address: int) -> list[int]:
    """Returns the words of `?NC GO` to an address."""
    return [(address & 0xFF) << 2 | 1, address >> 8 << 2 | 2]


class Plugged:
    """The blocks that plug all words for calls of a function. `entry` is the address that is called, `steps` are the steps from there to
    the function, and `shown` the commands that show which banks are active. A function that cannot be called has no entry."""

    def __init__(self, code: Code, label: str) -> None:
        """Finds free places for the words that call the function at a label, and puts them there."""
        place = code.labels[label]
        self.address, self.number = place % ADDRESSES, place // ADDRESSES + 1
        self.text, self.shown, self.steps, self.entry = "", "", 0, self.address if self.number == 1 else None
        images = {(bank.page, bank.number): list(bank.words) for bank in code.banks}
        for page in pages_with_banks(code):
            first = free_places(code, page)
            if first is not None:
                self.add(images, page, first)
        for (page, number), words in images.items():
            self.text += block(f"{page:X}" + (f" b{number}" if number > 1 else ""), words)

    def add(self, images: dict[tuple[int, int], list[int]], page: int, first: int) -> None:
        """Adds the words at free places of a page."""
        images.setdefault((page, 1), [])
        for (other, number), words in images.items():
            if other == page:
                words += [0] * (first + NEEDED - len(words))
                words[first + SHOWS] = ENBANK[number - 1]
        self.shown += f"list {(page << 12) + first + SHOWS:04X} 1\n"
        if page == self.address >> 12 and self.number > 1:
            images[page, 1][first] = ENBANK[self.number - 1]
            images[page, self.number][first + 1:first + 3] = jump(self.address)
            self.entry, self.steps = (page << 12) + first, 2


def active_bank(line: str) -> tuple[str, str] | None:
    """Returns the name and the number of the active bank that a line of `list` shows; None of another line."""
    found = OF_BANK.fullmatch(line)
    return (f"BANK{found[1]}", str(ENBANK.index(int(found[2], 16)) + 1)) if found else None
