"""The sources of the words that a bench executes: labels and source lines of addresses, and addresses of labels and source lines."""
import os
import re
from bisect import bisect_right
from typing import NamedTuple

from .decks import Failure, lines_of, text_of, words_of
from .linking import Linked
from .sources import Source

LABEL = re.compile(r"(?:(\w+)\.)?([A-Za-z]\w{0,11})(?:\+([0-9A-Fa-f]{1,3}))?")
LINE = re.compile(r"(?:(.*):)?([0-9]{1,6})")
ADDRESS = re.compile("[0-9A-Fa-f]{4}")


class Part(NamedTuple):
    """A source in a bank of a page: its labels with their places, the place of each line and of the end, and for each line the file, the
    number and the text."""
    page: int
    bank: int
    name: str
    labels: dict[str, int]
    places: list[int]
    rows: list[tuple[str, int, str]]

    def row_at(self, place: int) -> tuple[str, int, str] | None:
        """Returns the line whose words include a place; None if there is none."""
        return self.rows[bisect_right(self.places, place) - 1] if place < self.places[-1] else None


def parts_of_project(linked: Linked) -> list[Part]:
    """Returns the sources of a project."""
    return [Part(int(unit.page, 16), unit.bank.bank, unit.name, unit.labels, unit.places,
                 [(path, number, text.decode(errors="backslashreplace"))
                  for (path, number), text in zip(unit.whole.origins, unit.whole.told)]) for unit in linked.units]


def bank_of(words: list[bytes]) -> int:
    """Returns the bank of a block, from the words of its first line."""
    return next((int(word[1:]) for word in words[2:] if re.fullmatch(rb"b[1-4]", word)), 1)


def parts_of_deck(path: str, deck: bytes, items: list[tuple[int, int]]) -> list[Part]:
    """Returns the sources of a deck: its blocks `asm`. A later block for the same bank replaces an earlier one."""
    lines = lines_of(deck)
    found: dict[tuple[int, int], Part] = {}
    for first, last in items:
        words = words_of(lines[first])
        if words[:1] == [b"unplug"] and words[1:]:
            found = {key: part for key, part in found.items() if key[0] != int(words[1], 16)}
        if words[:1] not in ([b"asm"], [b"words"], [b"image"]) or not re.fullmatch(rb"[4-9A-Fa-f]", (words[1:2] or [b""])[0]):
            continue
        page, bank = int(words[1], 16), bank_of(words)
        found.pop((page, bank), None)
        source = Source(b"".join(lines[first + 1:last])) if words[0] == b"asm" else None
        if source and not source.faults:
            rows = [(path, first + 2 + at, text_of(text).decode(errors="backslashreplace"))
                    for at, text in enumerate(lines[first + 1:last])]
            found[page, bank] = Part(page, bank, f"{page:X}b{bank}", source.labels, source.places, rows)
    return list(found.values())


class Places:
    """The sources of all pages."""

    def __init__(self, parts: list[Part]) -> None:
        """Collects the labels of the sources."""
        self.parts = parts
        self.labels: dict[str, list[Part]] = {}
        for part in parts:
            for name in part.labels:
                self.labels.setdefault(name, []).append(part)

    def part_at(self, address: int, bank: int) -> Part | None:
        """Returns the source of a bank of the page of an address; None if there is none."""
        return next((part for part in self.parts if (part.page, part.bank) == (address >> 12, bank)), None)

    def has_banks(self, address: int) -> bool:
        """Returns whether the page of an address has sources in several banks."""
        return sum(part.page == address >> 12 for part in self.parts) > 1

    def name_of(self, address: int, bank: int) -> str:
        """Returns the last label at or before an address with the offset in hexadecimal words; without a label, the four digits."""
        part, place = self.part_at(address, bank), address & 0xFFF
        before = [(at, name) for name, at in part.labels.items() if at <= place] if part else []
        if part is None or not before:
            return f"{address:04X}"
        at, name = max(before)
        full = name if len(self.labels[name]) == 1 else f"{part.name}.{name}"
        return full + (f"+{place - at:X}" if place > at else "")

    def source_of(self, address: int, bank: int) -> str:
        """Returns the file, number and text of the source line at an address; an empty text if there is none."""
        part = self.part_at(address, bank)
        row = part.row_at(address & 0xFFF) if part else None
        return f"{os.path.basename(row[0])}:{row[1]}: {row[2].strip()}" if row else ""

    def find(self, text: str) -> tuple[int, int | None]:
        """Returns the address that a label, an address or a source line means, and its bank; None for every bank."""
        label, line = LABEL.fullmatch(text), LINE.fullmatch(text)
        if label and label[2] in self.labels:
            return self.at_label(label[1], label[2], int(label[3] or "0", 16))
        if ADDRESS.fullmatch(text):
            return int(text, 16), None
        if line:
            return self.at_line(line[1] or "", int(line[2]))
        near = next((name for name in self.labels if label and name.lower() == label[2].lower()), "")
        how = (f"upper and lower case differ: write {near}" if near else
               "expected a label like LOOP or LOOP+2, an address of four hexadecimal digits, or a source line like main.asm:12")
        raise Failure(f"found `{text}`, but no source has this label: {how}")

    def at_label(self, page: str | None, name: str, offset: int) -> tuple[int, int]:
        """Returns the address and the bank of a label with an offset. If several banks have the label, that of bank 1 is meant."""
        parts = [part for part in self.labels[name] if page in (None, part.name)]
        first = [part for part in parts if part.bank == 1] if parts[1:] else parts
        if len(first) != 1:
            names = " or ".join(f"{part.name}.{name}" for part in self.labels[name])
            what = (", a label of several sources" if not page else
                    ", a label that this source does not have" if page in (part.name for part in self.parts) else
                    f": no source is named {page}")
            raise Failure(f"found `{f'{page}.' if page else ''}{name}`{what}: expected {names}")
        return (first[0].page << 12) + first[0].labels[name] + offset, first[0].bank

    def at_line(self, file: str, number: int) -> tuple[int, int]:
        """Returns the address and the bank of the first words at or after a source line."""
        asked = f"{file}:{number}" if file else str(number)
        names = sorted({os.path.basename(path) for part in self.parts for path, _, _ in part.rows})
        if not names:
            raise Failure(f"found `{asked}`, but no source is known: expected an address of four hexadecimal digits")
        if not file and names[1:]:
            raise Failure(f"found `{asked}`, expected the file too: {' or '.join(f'{name}:{number}' for name in names)}")
        own = [(part, at, row) for part in self.parts for at, (path, row, _) in enumerate(part.rows)
               if file in ("", os.path.basename(path), path)]
        if not own:
            raise Failure(f"found `{asked}`, but no source is named {file}: expected a line of {' or '.join(names)}")
        own = [(part, at, row) for part, at, row in own if part.places[at] < part.places[at + 1]]
        for part, at, row in own:
            if row >= number:
                return (part.page << 12) + part.places[at], part.bank
        last = f"line {max(row for _, _, row in own)} is the last one with words" if own else "the source has no line with words"
        raise Failure(f"found `{asked}`, but {last}")
