"""What is known before a program line: the values in the registers, the facts, the loops in which the line is, and the lines after it."""
from __future__ import annotations

from dataclasses import dataclass, field, replace
from typing import TYPE_CHECKING, NamedTuple

from .lineclaims import Condition, LoopContract, Relation, Term, old
from .linecounts import Count

if TYPE_CHECKING:
    from .linetheorems import Program

# The calculator keeps this many return addresses.
RETURNS = 6

# The registers of the stack as the definitions name them.
PLACES = {"T": "t", "Z": "z", "Y": "y", "X": "x", "L": "last"}


@dataclass(frozen=True)
class State:
    """The values in the registers before a line. `written` has the data registers that were written, in their order. `lift` is None if it
    is not known whether stack lift is on; then `switch` names the variable that says it."""
    t: Term
    z: Term
    y: Term
    x: Term
    last: Term
    written: tuple[tuple[int, Term], ...] = ()
    lift: bool | None = None
    switch: str = "lift"

    def register(self, name: str) -> Term:
        """Returns the value in a register."""
        if name in PLACES:
            found: Term = getattr(self, PLACES[name])
            return found
        return next((value for number, value in reversed(self.written) if number == int(name[1:])), old(name))

    def coming(self, value: Term, lift: bool) -> State:
        """Returns the state after a value has come into X."""
        if lift:
            return replace(self, t=self.z, z=self.y, y=self.x, x=value, lift=True)
        return replace(self, x=value, lift=True)

    def dropped(self, value: Term) -> State:
        """Returns the state after a function of Y and X."""
        return replace(self, z=self.t, y=self.z, x=value, last=self.x, lift=True)


START = State(old("T"), old("Z"), old("Y"), old("X"), old("L"))


class Fact(NamedTuple):
    """What is known on a path: the result of an operation, whether a condition is true, what a subroutine or a line has left in a register,
    the name of the variable that says whether stack lift is on, a comparison of natural numbers, or that a round of a loop has begun."""
    result: Term | None = None
    condition: Condition | None = None
    left: Term | None = None
    switch: str = ""
    relation: tuple[str, str, str] | None = None
    loop: Loop | None = None


class NeedsWholes(Exception):
    """A program calls another one that has claims about whole numbers, so its own whole numbers have to be followed."""


class Call(NamedTuple):
    """A subroutine that a line calls, and the place of its label if that is in the same program."""
    program: Program
    place: int | None


@dataclass(eq=False)
class Loop:
    """A loop: its number, the place of its label, its claims, the state at its label, what is known there of the registers, and whether
    stack lift is on. `outer` are the loops in which it is, the outermost first. `relations` are its comparisons at its label, `measure`
    is what falls, `known` is all that is known there, and `start` is the point at the label."""
    number: int
    place: int
    contract: LoopContract
    state: State
    facts: tuple[Fact, ...]
    is_on: bool
    outer: tuple[Loop, ...] = ()
    relations: list[tuple[str, str, str, Relation]] = field(default_factory=list)
    measure: str = ""
    known: tuple[Fact, ...] = ()
    start: Point | None = None

    @property
    def context(self) -> tuple[Fact, ...]:
        """Returns what is known from the loops in which this one is."""
        return self.outer[-1].known if self.outer else ()

    def round(self) -> Count:
        """Returns the greatest number of lines of a round that another one follows."""
        return self.start.ways.get(self.number, Count(0)) if self.start else Count(0)

    def rest(self) -> Count:
        """Returns the number of lines in addition to those of the rounds."""
        return self.round().greatest(self.start.base(self)) if self.start else Count(0)

    def more(self) -> Count:
        """Returns the number of lines that have to be left, in addition to those of the other rounds, before another round."""
        return self.rest().beyond(self.round())

    def most(self, left: str) -> Count:
        """Returns the greatest number of lines from the label on, if a number is left of what falls."""
        parts = [*self.round().rounds(left),
                 *(part for loop in reversed(self.outer) for part in loop.round().rounds(f"left_{loop.number}"))]
        return Count(0, tuple(parts)).joined(self.rest())


@dataclass
class Point:
    """A line that is reached, with the state before it and what is known. `kind` says what happens: `line`, `lift` (it depends on stack
    lift), `test`, `outcome` (the result may be out of range), `call`, `end`, or `jump` for GTO with a name, after which `left` is the end;
    with whole numbers also `exact`, `fraction`, `compare`, `count`, and at the label of a loop `enter` and `again`. `after` has the points after it, and `own` the number of lines before them. `register` is the
    data register that the line uses. `ways` has the greatest numbers of lines: 0 up to the end of the program, and others up to the label
    of the loop with this number. `loops` are the loops in which the point is, the outermost first. `entered` is the loop that begins here,
    with what falls there, and `again` the one of which a round ends here."""
    name: str
    at: int
    state: State
    facts: tuple[Fact, ...]
    kind: str
    after: list[Point]
    register: int | None = None
    result: Term | None = None
    condition: Condition | None = None
    own: Count = Count(1)
    ways: dict[int, Count] = field(default_factory=dict)
    loops: tuple[Loop, ...] = ()
    entered: tuple[Loop, str] | None = None
    again: Loop | None = None

    def measured(self) -> None:
        """Finds the greatest numbers of lines from those of the points after this one."""
        self.ways = {0: Count(1)} if self.kind == "end" else {}
        for one in self.after:
            for way, lines in one.ways.items():
                self.ways[way] = self.ways.get(way, Count(0)).greatest(lines.more(self.own))

    def base(self, but: Loop | None = None) -> Count:
        """Returns the greatest number of lines, without those of further rounds of the loops in which the point is, and without the paths
        to the label of one of them."""
        found = self.ways.get(0, Count(0))
        for loop in self.loops:
            if loop.number in self.ways and loop is not but:
                found = found.greatest(self.ways[loop.number].more(loop.more()))
        return found

    @property
    def most(self) -> Count:
        """Returns the greatest number of lines from the point on."""
        parts = tuple(part for loop in reversed(self.loops) for part in loop.round().rounds(f"left_{loop.number}"))
        return Count(0, parts).joined(self.base())
