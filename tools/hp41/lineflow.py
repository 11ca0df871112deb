"""To which lines the lines of a program lead, whatever the registers contain, and which data registers they write."""
from __future__ import annotations

import re
from typing import TYPE_CHECKING, Callable, Iterable

from .codes import NotProved
from .lineterms import GO_TO, GO_TO_NAMED, TEST, ProgramLine

if TYPE_CHECKING:
    from .linepoints import Call

ENDS = ("RTN", "END")
# Lines that may skip the next one.
COUNTERS = re.compile("(ISG|DSE) ")


class Flow:
    """The lines of a program, from its label to its END."""

    def __init__(self, lines: list[ProgramLine], called: Callable[[int], Call], written: Callable[[list[ProgramLine]], list[int]]) -> None:
        """Takes the lines, the subroutine that the XEQ at a place calls, and the data registers that lines write."""
        end = next((place for place, line in enumerate(lines) if line.text == "END"), len(lines) - 1)
        self.lines, self.called, self.written = lines[:end + 1], called, written

    def after(self, at: int) -> list[int]:
        """Returns the places of the lines that can follow a line."""
        text = self.lines[at].text
        if text in ENDS or GO_TO_NAMED.fullmatch(text):
            return []
        if GO_TO.fullmatch(text):
            label = f"LBL {text[4:]}"
            order = [*range(at + 1, len(self.lines)), *range(at + 1)]
            return [place for place in order if self.lines[place].text == label][:1]
        skips = bool(TEST.fullmatch(text) or COUNTERS.match(text))
        return [place for place in (at + 1, at + 2)[:1 + skips] if place < len(self.lines)]

    def reached(self, at: int, avoided: int | None = None) -> set[int]:
        """Returns the places that can be reached from a line by one line or more, without a line after the avoided one."""
        found: set[int] = set()
        new = self.after(at)
        while new:
            place = new.pop()
            if place not in found:
                found.add(place)
                new += self.after(place) if place != avoided else []
        return found

    def between(self, first: int, last: int) -> set[int]:
        """Returns the places on the ways from a line to another one that do not return to the first one."""
        return {place for place in {first, *self.reached(first, first)} if last in self.reached(place, first)}

    def writes(self, places: Iterable[int]) -> list[int]:
        """Returns the data registers that lines write, and the subroutines that they call."""
        own = sorted(places)
        found = set(self.written([self.lines[place] for place in own]))
        for place in own:
            if self.lines[place].text.startswith("XEQ "):
                try:
                    found.update(self.called(place).program.written())
                except NotProved:
                    # The line is refused if it is reached.
                    continue
        return sorted(found)
