"""The language of claims: what a comment before a label requires and ensures of registers, and in how many steps a function returns. The
module claimreading reads claims."""
from __future__ import annotations

import difflib
import re
from dataclasses import dataclass, field
from typing import Iterator, NoReturn, Union

# The fields that a claim can name, with their places, and the registers of 14 digits.
FIELDS = {"SX": (0, 2), "S&X": (0, 2), "XS": (2, 2), "M": (3, 12), "MS": (13, 13), "ALL": (0, 13)}
WIDE = ("A", "B", "C", "M", "N")
LAST_PLACE, LAST_STATUS = 13, 13

# The registers of memory that have a name, with their addresses, and the first and last addresses at which there are registers.
STACK = {"X": 0x003, "Y": 0x002, "Z": 0x001, "L": 0x004}
MEMORY = ((0x000, 0x00F), (0x0C0, 0x1FF))

# Registers whose value is a number, and those that have a name as their value.
NUMBERS = ("G", "T", "P", "Q", "CY", "ST", "RAM")
NAMED = {"MODE": ("HEX", "DEC"), "PT": ("P", "Q"), "BANK": ("1", "2", "3", "4")}

RELATIONS = ("<=", ">=", "<>", "=", "<", ">")
KEYWORDS = ("requires", "ensures", "invariant", "decreases")
CONDITIONS = ("if", "when", "unless", "or", "and")


class Wrong(Exception):
    """An error in a claim: its source line, its column, and what was found and expected."""

    def __init__(self, line: int, column: int, why: str) -> None:
        """Takes the source line, the column, and what was found and expected."""
        super().__init__(why)
        self.line, self.column, self.why = line, column, why


@dataclass(frozen=True)
class Atom:
    """A number of a state: the digits `lo` to `hi` of a register of 14 digits, or a register or a bit as it is (`lo` is then None).
    `old` is set for the state in which the function begins. `address` is that of a register of memory. `base` is 10 for the decimal
    number that the digits form."""
    name: str
    lo: int | None = None
    hi: int | None = None
    old: bool = False
    address: int | None = None
    base: int = 16


@dataclass(frozen=True)
class Sum:
    """A sum of multiples of atoms, and a constant. Factors and the constant can be negative."""
    parts: tuple[tuple[int, Atom], ...] = ()
    constant: int = 0

    def times(self, factor: int) -> Sum:
        """Returns a multiple of the sum."""
        return Sum(tuple((factor * many, atom) for many, atom in self.parts), factor * self.constant)

    def plus(self, other: Sum) -> Sum:
        """Returns the sum of both."""
        counts: dict[Atom, int] = {}
        for many, atom in (*self.parts, *other.parts):
            counts[atom] = counts.get(atom, 0) + many
        return Sum(tuple((many, atom) for atom, many in counts.items() if many), self.constant + other.constant)

    def atoms(self) -> Iterator[Atom]:
        """Yields the atoms."""
        return (atom for _, atom in self.parts)


@dataclass(frozen=True)
class Claim:
    """A comparison of two sums. `text` is its text in the source, `line` its source line, counted from 1."""
    left: Sum
    relation: str
    right: Sum
    text: str
    line: int

    def atoms(self) -> list[Atom]:
        """Returns the atoms of both sides."""
        return [*self.left.atoms(), *self.right.atoms()]


@dataclass(frozen=True)
class Named:
    """A claim that MODE or PT has a value that is a name, or that a bank of the function's page is active. In a project, `page` is this
    page."""
    name: str
    value: str
    text: str
    line: int
    page: int = 0

    def atoms(self) -> list[Atom]:
        """Returns no atom."""
        return []


@dataclass(frozen=True)
class Decimal:
    """A claim that some digits are 0 to 9."""
    atom: Atom
    text: str
    line: int

    def atoms(self) -> list[Atom]:
        """Returns the atom."""
        return [self.atom]


@dataclass(frozen=True)
class Others:
    """A claim that the registers of memory at all addresses but these are as before."""
    addresses: tuple[int, ...]
    text: str
    line: int

    def atoms(self) -> list[Atom]:
        """Returns no atom."""
        return []


AnyClaim = Union[Claim, Named, Decimal, Others]


@dataclass(frozen=True)
class Steps:
    """A claim on the number of steps: exactly this many, or at most this many."""
    count: Sum
    is_exact: bool
    text: str
    line: int


@dataclass(frozen=True)
class Measure:
    """The text of the number that each round of a loop makes smaller, and its source line."""
    text: str
    line: int


@dataclass
class Contract:
    """The claims before a label. `line` is the source line of the first of them."""
    line: int
    requires: list[AnyClaim] = field(default_factory=list)
    ensures: list[AnyClaim] = field(default_factory=list)
    invariant: list[AnyClaim] = field(default_factory=list)
    decreases: Sum | None = None
    measure: Measure | None = None
    steps: Steps | None = None

    @property
    def is_loop(self) -> bool:
        """Returns whether the label begins a loop."""
        return bool(self.invariant) or self.decreases is not None

    @property
    def is_function(self) -> bool:
        """Returns whether the label begins a function. A label can begin both."""
        return bool(self.requires or self.ensures or self.steps) or not self.is_loop


@dataclass(frozen=True)
class Token:
    """A word of a claim, with its line and column, counted from 1."""
    text: str
    line: int
    column: int


END = "the end of the claims"


class WordReader:
    """Reads the words after one keyword."""

    def __init__(self, keyword: str, tokens: list[Token], end: Token) -> None:
        """Begins with the first word."""
        self.keyword, self.tokens, self.end, self.at = keyword, tokens, end, 0

    def now(self) -> Token:
        """Returns the next word."""
        return self.tokens[self.at] if self.at < len(self.tokens) else self.end

    def fail(self, expected: str, at: Token | None = None) -> NoReturn:
        """Raises the error that something else was expected."""
        at = at or self.now()
        found = END if at.text == END else f"`{at.text}`"
        raise Wrong(at.line, at.column, f"found {found}, expected {expected}")

    def take(self, *texts: str) -> str | None:
        """Returns the next word and goes on, if it is one of these; otherwise None."""
        if self.now().text in texts and self.at < len(self.tokens):
            self.at += 1
            return self.tokens[self.at - 1].text
        return None

    def want(self, *texts: str) -> str:
        """Returns the next word, which must be one of these."""
        found = self.take(*texts)
        if found is None:
            self.fail(" or ".join(f"`{text}`" for text in texts))
        return found


def check_spelling(word: str, text: str, line: int, column: int) -> None:
    """Raises an error if a comment begins with a misspelled keyword: one that is nearly a keyword, before something like a claim."""
    near = difflib.get_close_matches(word.lower(), KEYWORDS, 1, 0.8)
    claim = r"\b[A-Z]+\b" if near == ["decreases"] else r"[=<>]|\bis\b|\bas before\b|\bunchanged\b|\bsteps?\b|\blines?\b"
    if near and re.search(claim, text):
        raise Wrong(line, column, f"found `{word}`, expected `{near[0]}`, or another comment")
