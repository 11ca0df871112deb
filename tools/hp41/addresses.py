"""Labels for the addresses that the bench prints: those of the sources that a deck plugs."""
import re
from bisect import bisect
from typing import Iterable

from .decks import items_of, words_of
from .refusals import Refused
from .sources import Line, Source

# A line of the bench that ends with an address: the position in a function or in a program of a page, or a refusal.
OF_AN_ADDRESS = re.compile(r"(?:Micro |(?:Run|Idle) P|! (?:0[6-9]|1[0-2]) \w+ )([4-9A-F][0-9A-F]{3})")


class Labels:
    """The labels of the sources that a deck plugs."""

    def __init__(self, lines: Iterable[bytes] = ()) -> None:
        """Finds room for the labels in some lines."""
        self.pages: dict[bytes, dict[bytes, list[tuple[int, str]]]] = {}
        labels = [line.label for line in map(Line, lines) if line.label]
        # Room for the longest label, a sign and an offset.
        self.width = max(map(len, labels)) + 4 if labels else 0

    def follow(self, lines: list[bytes]) -> None:
        """Adds the labels of a block that the bench has accepted, or forgets those of a page that is plugged without a source, or
        unplugged."""
        words = words_of(lines[0])
        if words[0] not in (b"asm", b"words", b"image", b"unplug"):
            return
        banks = self.pages.setdefault(words[1].upper(), {})
        bank = next((word for word in words[2:] if word.startswith(b"b")), b"b1")
        if words[0] == b"unplug":
            banks.clear()
        elif words[0] == b"asm":
            banks[bank] = sorted((place, name) for name, place in Source(b"".join(lines[1:-1])).labels.items())
        else:
            banks.pop(bank, None)

    def of(self, address: str) -> str:
        """Returns the label at an address, or the last one before it with the offset in words; an empty text if there is none. If several
        banks of the page have sources, returns the label of each, because the active bank is not known."""
        banks, place = self.pages.get(address[:1].encode(), {}), int(address[1:], 16)
        found = (labels[:bisect(labels, (place, "~"))][-1:] for _, labels in sorted(banks.items()))
        return "/".join(dict.fromkeys(name + (f"+{place - before:X}" if place > before else "")
                                      for last in found for before, name in last))

    def behind(self, line: str) -> str:
        """Returns the label for a line that ends with an address, after a space."""
        found = OF_AN_ADDRESS.fullmatch(line)
        label = self.of(found[1]) if found else ""
        return f" {label}" if label else ""


def tell_labels(lines: list[bytes], found: list[Refused]) -> None:
    """Adds labels to the addresses in the refusals of a deck."""
    items, refusals = items_of(lines), {one.first: one for one in found}
    labels = Labels(line for first, last in items if words_of(lines[first])[:1] == [b"asm"] for line in lines[first:last])
    for first, last in items:
        if first in refusals:
            refusals[first].refusal += labels.behind(refusals[first].refusal)
        elif labels.width and words_of(lines[first]):
            labels.follow(lines[first:last + 1])
