"""Numbers of program lines: sums of a constant and of multiples of whole numbers, as theorems about programs have them."""
from __future__ import annotations

import re
from dataclasses import dataclass
from typing import Mapping


@dataclass(frozen=True)
class Count:
    """A number of lines: a constant, and multiples of natural numbers of the definitions, or of their products."""
    constant: int
    parts: tuple[tuple[int, str], ...] = ()

    def __str__(self) -> str:
        """Returns the number as the definitions have it."""
        found = " + ".join([*(f"{many} * {one}" for many, one in self.parts), str(self.constant)])
        return f"({found})" if self.parts else found

    def shown(self) -> str:
        """Returns the number in words for a reader, with the registers before the program."""
        text = str(self).removeprefix("(").removesuffix(")") if self.parts else str(self)
        text = re.sub(r"(count|final)_(\w+)", lambda found: f"{found[1].upper()}({found[2].upper()})", text)
        return re.sub(r"whole_(\w+)", lambda found: found[1].upper(), text)

    def more(self, lines: int | Count) -> Count:
        """Returns the number with more lines."""
        other = lines if isinstance(lines, Count) else Count(lines)
        return summed(self.constant + other.constant, [*self.parts, *other.parts])

    def joined(self, other: Count) -> Count:
        """Returns the sum with another number, with all parts of both: none are added."""
        return Count(self.constant + other.constant, (*self.parts, *other.parts))

    def times(self, other: Count) -> Count:
        """Returns the product with another number."""
        parts = [*((many * other.constant, one) for many, one in self.parts), *((many * self.constant, one) for many, one in other.parts),
                 *((many * times, " * ".join(sorted([*one.split(" * "), *two.split(" * ")]))) for many, one in self.parts
                   for times, two in other.parts)]
        return summed(self.constant * other.constant, parts)

    def rounds(self, left: str) -> tuple[tuple[int, str], ...]:
        """Returns the parts of this number times a natural number of the definitions."""
        own = ((self.constant, left),) if self.constant else ()
        return (*((many, f"{one} * {left}") for many, one in self.parts), *own)

    def greatest(self, other: Count) -> Count:
        """Returns a number that is at least this one and another one: the greatest of each multiple."""
        return self.more(other.beyond(self))

    def beyond(self, other: Count) -> Count:
        """Returns what has to be added to another number, so that it is at least this one."""
        known = {one: many for many, one in other.parts}
        parts = [(max(0, many - known.get(one, 0)), one) for many, one in self.parts]
        return summed(max(0, self.constant - other.constant), parts)

    def value(self, numbers: Mapping[str, int]) -> int:
        """Returns the number for some whole numbers, which have the names that they have in the definitions."""
        found = self.constant
        for many, one in self.parts:
            for name in one.split(" * "):
                many *= numbers[name]
            found += many
        return found


def summed(constant: int, parts: list[tuple[int, str]]) -> Count:
    """Returns a number of lines without parts that are zero, and with each natural number once."""
    found: dict[str, int] = {}
    for many, one in parts:
        found[one] = found.get(one, 0) + many
    return Count(constant, tuple((many, one) for one, many in found.items() if many))
