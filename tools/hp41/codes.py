"""The code of a source, its functions with claims, and what is known of a function after its symbolic execution."""
from __future__ import annotations

from dataclasses import dataclass, field
from typing import TYPE_CHECKING, NamedTuple

from .claims import AnyClaim, Atom, Claim, Contract, Named, Sum
from .knowledge import Knowledge
from .symbols import Form, Key, Node, Span, State, argument, register_at, status_bit, status_byte

if TYPE_CHECKING:
    from .activebanks import ActiveBanks


class NotProved(Exception):
    """The reason why a function cannot be proved: the source line and what was found and expected."""

    def __init__(self, line: int, why: str) -> None:
        """Takes the source line, and what was found and expected."""
        super().__init__(why)
        self.line, self.why = line, why


class Instruction(NamedTuple):
    """An instruction: its place in the list of words, its words, its text in the listing, and its source line, counted from 1."""
    place: int
    words: tuple[int, ...]
    text: str
    line: int


# A *place* is an address, with one less than the number of its bank before its four digits: 18002 is 8002 in bank 2.
ADDRESSES = 0x10000


class Bank(NamedTuple):
    """The words of a bank: its name in the project file, its page, its number, its words from the first address of the page on, and how
    many of them are those of its source: the others are the end of the page. A source alone is bank 1 of its page, without a name."""
    name: str
    page: int
    number: int
    words: list[int]
    size: int


@dataclass
class Code:
    """The instructions of a source, or of the sources of a project, by place, their banks, and the places of labels with contracts.
    `origins` has the file and the number of each line: the lines of all sources are counted as those of one. `names` has the names of
    labels as they are shown, `texts` the instructions of lines as the source has them, and `free` a page that a project does not use."""
    banks: list[Bank]
    instructions: dict[int, Instruction]
    labels: dict[str, int]
    contracts: dict[str, Contract]
    lines: dict[str, int] = field(default_factory=dict)
    origins: list[tuple[str, int]] = field(default_factory=list)
    names: dict[str, str] = field(default_factory=dict)
    texts: dict[int, str] = field(default_factory=dict)
    free: str = ""

    @property
    def is_project(self) -> bool:
        """Returns whether the code is that of a project."""
        return bool(self.free)

    @property
    def origin(self) -> int:
        """Returns the first address of a source alone."""
        return self.banks[0].page << 12

    def line_of(self, label: str) -> int:
        """Returns the source line of a label with a contract."""
        return self.lines.get(label, 0)

    def numbered(self, line: int, near: int) -> str:
        """Returns a source line as text: its number, and its file if it is another one than that of a second line."""
        path, number = self.origins[line - 1]
        return f"line {number}{f' of {path}' if path != self.origins[near - 1][0] else ''}"

    def shown(self, label: str) -> str:
        """Returns the name of a label: in a project with its page, its bank and its address."""
        place = self.labels[label]
        where = f" at {place % ADDRESSES:04X} in bank {place // ADDRESSES + 1}" if self.is_project else ""
        return f"{self.names.get(label, label)}{where}"

    def bank(self, page: int, number: int) -> Bank | None:
        """Returns a bank of the project; None if it has no words."""
        return next((one for one in self.banks if (one.page, one.number) == (page, number)), None)

    def at(self, place: int, line: int) -> Instruction:
        """Returns the instruction at a place."""
        found = self.instructions.get(place)
        if not found:
            where = f" in bank {place // ADDRESSES + 1}" if self.is_project else ""
            raise NotProved(line, f"the function continues at {place % ADDRESSES:04X}{where}, expected an address of an instruction of this "
                                  f"{'project' if self.is_project else 'source'}")
        return found


@dataclass
class Result:
    """What is known of a function that is executed: its label, its nodes, the components that it changes, with their values at the end
    if these are known, the most steps that it takes, the functions that it calls, and its loops, in the order in which they are
    entered. `banks` are the active banks in its states."""
    label: str
    contract: Contract
    root: Node
    knowledge: Knowledge
    banks: ActiveBanks
    ends: list[Node] = field(default_factory=list)
    changed: dict[str, str | None] = field(default_factory=dict)
    returns: tuple[str, ...] = ()
    steps: int = 0
    is_exact: bool = False
    calls: list[str] = field(default_factory=list)
    loops: list[Loop] = field(default_factory=list)

    @property
    def bound(self) -> Sum:
        """Returns the number of steps that the theorem states."""
        claimed = self.contract.steps
        return claimed.count if claimed else Sum((), self.steps)

    @property
    def uses_memory(self) -> bool:
        """Returns whether the theorem requires that registers of memory exist."""
        return self.knowledge.uses_memory

    @property
    def is_budgeted(self) -> bool:
        """Returns whether the number of steps that are left in a node depends on the state in which the function begins."""
        return bool(self.loops or self.contract.steps and self.contract.steps.count.parts)


@dataclass
class Loop:
    """A loop: its label, address and contract, the components that a round may change, and which return addresses, the nodes at the
    beginning of a round, the states from which it is entered, to which a round leads, and from which the next loop is entered, and the
    most steps of a round. If the number of steps is exact, the second node is the beginning of the last round, in which `decreases` is
    zero, and `last_steps` are the steps of this round. `budget` is the number of steps that are left when it is entered from another
    loop."""
    label: str
    address: int
    contract: Contract
    names: set[str] = field(default_factory=set)
    lost: set[int] = field(default_factory=set)
    roots: list[Node] = field(default_factory=list)
    entries: list[Node] = field(default_factory=list)
    backs: list[Node] = field(default_factory=list)
    leaves: list[Node] = field(default_factory=list)
    steps: int = 0
    last_steps: int = 0
    after: Loop | None = None
    budget: Form = field(default_factory=dict)


def plain(claims: list[AnyClaim]) -> list[AnyClaim]:
    """Returns the claims about numbers, without those that give a component a value."""
    return [claim for claim in claims if not value_of(claim)]


def value_of(claim: AnyClaim) -> tuple[str, str] | None:
    """Returns the component and the value that a requirement gives it."""
    if not isinstance(claim, (Claim, Named)):
        return None
    if isinstance(claim, Named) and claim.name == "BANK":
        return None
    if isinstance(claim, Named):
        values = {"HEX": "Hexadecimal", "DEC": "Decimal"}
        return ("base", values[claim.value]) if claim.name == "MODE" else ("active", claim.value)
    left, right = claim.left, claim.right
    if claim.relation == "=" and len(left.parts) == 1 and not right.parts and not left.constant and left.parts[0][0] == 1:
        name, count = left.parts[0][1].name, right.constant
        if name == "CY" and count in (0, 1):
            return "carry", "true" if count else "false"
        if name in ("P", "Q") and 0 <= count < 14:
            return name.lower(), str(count)
        if name == "RAM" and 0 <= count < 1024:
            return "selected", str(count)
    return None


def known_at_start(contract: Contract) -> dict[str, str]:
    """Returns the components that have a known value when the function begins: those that are required, else hexadecimal mode and a
    clear carry."""
    found = {"carry": "false", "base": "Hexadecimal"}
    for claim in contract.requires:
        given = value_of(claim)
        if given:
            found[given[0]] = given[1]
    return found


def claim_text(name: str, value: str) -> str:
    """Returns the claim that a component has a value, as a contract writes it."""
    names = {"base": "MODE", "active": "PT", "carry": "CY", "selected": "RAM"}
    words = {"Hexadecimal": "HEX", "Decimal": "DEC", "true": "1", "false": "0", "P": "P", "Q": "Q"}
    return f"{names.get(name, name.upper())} = {words[value] if value in words else number_of(int(value))}"


def number_of(value: int) -> str:
    """Returns a number as claims write it: in hexadecimal, and with a digit first."""
    digits = f"{value:X}"
    return digits if digits[0].isdigit() else f"0{digits}"


def register_of(node: Node, name: str) -> str:
    """Returns the proof that a register has 14 digits in a state."""
    return f"{node.whole}.processor.{'abc.' if name in 'abc' else ''}{name}"


def key_of(atom: Atom, state: State) -> Key:
    """Returns the number of an atom in a state."""
    name = atom.name.lower()
    if atom.lo is not None:
        register = state.of(name) if atom.address is None else register_at(state.of("ram"), atom.address)
        return Span(register, atom.lo, atom.hi or 0, atom.base)
    if atom.name == "CY":
        return f"carry_digit {argument(state.of('carry'))}"
    if atom.name == "ST":
        return status_byte(state.of("status"))
    if atom.name == "RAM":
        return state.of("selected")
    return status_bit(int(atom.name[1:]), state.of("status")) if atom.name.startswith("S") else state.of(name)


def form_of(one: Sum, now: State, before: State) -> Form:
    """Returns a sum with the factor of each number; the constant is the factor of None."""
    found: Form = {None: one.constant} if one.constant else {}
    for many, atom in one.parts:
        key = key_of(atom, before if atom.old else now)
        if isinstance(key, str) and key.isdigit():
            found[None] = found.get(None, 0) + many * int(key)
        else:
            found[key] = found.get(key, 0) + many
    return {key: many for key, many in found.items() if many}


def measure_of(loop: Loop, state: State, start: State) -> Form:
    """Returns the number that each round of a loop makes smaller, in a state. `start` is the state in which the function begins."""
    return form_of(loop.contract.decreases or Sum(), state, start)


def negative_free(left: Sum, right: Sum) -> tuple[Sum, Sum]:
    """Returns both sides of a comparison without negative terms: these are moved to the other side."""
    def split(one: Sum, sign: int) -> Sum:
        """Returns the part of a sum that has this sign, as a sum of positive terms."""
        return Sum(tuple((abs(many), atom) for many, atom in one.parts if many * sign > 0), max(one.constant * sign, 0))

    return split(left, 1).plus(split(right, -1)), split(right, 1).plus(split(left, -1))
