"""What symbolic execution knows of states: their components as terms of the prover, and the registers and memories that words have
made."""
from __future__ import annotations

from dataclasses import dataclass, field
from typing import Any, Iterable, NamedTuple, Union

from .linear import Row

PLACES = 14
WIDE = ("a", "b", "c", "m", "n")
START = "s.processor"

# The components of a state outside the processor that words can change: the registers of memory, and the pages.
OUTSIDE = ("ram", "pages")

# The components of a state that claims can name.
COMPONENTS = ("a", "b", "c", "m", "n", "g", "t", "p", "q", "status", "carry", "selected", "ram")

# In the place of this text the number of registers of main memory is written that a source needs.
REGISTERS = "REGISTERS_NEEDED"


class Span(NamedTuple):
    """The number that the digits of a register from one place to another form in a base."""
    name: str
    lo: int
    hi: int
    base: int = 16

    def within(self, lo: int, hi: int) -> Span:
        """Returns the number of some of the digits."""
        return Span(self.name, lo, hi, self.base)

    def of(self, name: str) -> Span:
        """Returns the number of the same digits of another register."""
        return Span(name, self.lo, self.hi, self.base)


# A number of the prover: digits of a register, or any other term.
Key = Union[Span, str]

# A sum: the factor of each number; the constant is the factor of None.
Form = dict[Union[Key, None], int]


def start_of(name: str, state: str = "s") -> str:
    """Returns a component of a state as a term."""
    return f"{state}.{name}" if name in OUTSIDE else f"{state}.processor.{name}"


@dataclass
class State:
    """A state: the terms of those components that differ from the state in which the function begins. `returns` are the return
    addresses, the newest first, and `pc` is the next address."""
    pc: int
    returns: tuple[str, ...]
    terms: dict[str, str] = field(default_factory=dict)

    def of(self, name: str) -> str:
        """Returns the term of a component."""
        return self.terms.get(name, start_of(name))

    def after(self, pc: int, **changes: str) -> State:
        """Returns the state at another address, with the carry clear, and with other components."""
        return State(pc, self.returns, {**self.terms, "carry": "false", **changes})

    def with_returns(self, returns: Iterable[str]) -> State:
        """Returns the state with other return addresses."""
        return State(self.pc, tuple(returns), self.terms)

    def processor(self) -> str:
        """Returns the processor as a term."""
        parts = {name: term for name, term in self.terms.items() if name not in OUTSIDE}
        return record(START, {**parts, "pc": f"{self.pc:#06x}", "returns": stack(self.returns)})

    def text(self) -> str:
        """Returns the state as a term."""
        return f"({record('s', {'processor': self.processor(), **self.outside()})})"

    def outside(self) -> dict[str, str]:
        """Returns the components outside the processor that differ."""
        return {name: self.terms[name] for name in OUTSIDE if name in self.terms}


def state_of(variable: str) -> State:
    """Returns a state that is a variable."""
    return State(0, (), {name: start_of(name, variable) for name in COMPONENTS})


def record(of: str, parts: dict[str, str]) -> str:
    """Returns a record in which some parts are replaced, as a term."""
    return f"record {of} {{ {'; '.join(f'{name} = {term}' for name, term in parts.items())} }}"


def stack(returns: Iterable[str]) -> str:
    """Returns return addresses as a list of the prover."""
    return " ∷ ".join([*returns, "[]"])


def literal(value: object) -> bool:
    """Returns whether a component has a known value."""
    return isinstance(value, str) and (value.isdigit() or value in ("true", "false", "Hexadecimal", "Decimal", "P", "Q"))


@dataclass
class Fact:
    """A fact: its name, statement and proof, the numbers that it relates, and the node in whose module it is
    written."""
    name: str
    statement: str
    proof: str
    keys: tuple[Key, ...]
    owner: Node
    rows: list[Row]
    is_needed: bool = False


@dataclass
class Way:
    """What follows a jump that is taken, or not taken: the facts that are known then, the lemma that proves the step, and the node
    after it, which is None after the return of the function. `refuted` are the facts that contradict each other on this way, if there
    are any."""
    facts: list[Fact]
    lemma: str
    is_taken: bool
    node: Node | None = None
    end: Node | None = None
    refuted: list[Fact] | None = None

    @property
    def last(self) -> Node:
        """Returns the node after it, or that after the return."""
        found = self.node or self.end
        assert found
        return found


@dataclass
class Value:
    """A register of 14 digits: how a word has made it, at the places `lo` to `hi` of another register, `into`. `base` is that of a sum
    or a difference. If the register is the same as `x`, `rule` proves it."""
    name: str
    kind: str
    owner: Node
    is_register: str
    into: str = ""
    x: str = ""
    y: str = ""
    carry_in: str = "false"
    carry: str = ""
    lo: int = 0
    hi: int = PLACES - 1
    rule: str = ""
    digits: tuple[int | str, ...] = ()
    is_ruled: bool = False
    base: int = 16


@dataclass
class Ram:
    """The registers of memory in a state: those at the start, those after a write to an address, or others, of which it may be known
    that those at all addresses but some are as before. `has` proves which addresses exist."""
    name: str
    kind: str
    owner: Node
    has: str
    before: str = ""
    address: int = -1
    register: str = ""
    others: tuple[int, ...] | None = None
    proof: str = ""


@dataclass
class Node:
    """A state that a function reaches: the variables that are introduced there, abbreviations, definitions, memories after writes,
    facts, and the tests that were passed on the way. `form` says how the run continues, and `nexts` are the nodes after it. `steps` are
    the most steps from there to the end, `cost` those to the next node, `spent` those to the next node if they are those of a call, and
    `budget` is the number of steps that are left if it depends on the state at the start. `test` is the test whose result is the carry,
    and `selects` the number that selects an address of memory, with its value. `end` is the state after the return of the function,
    `proofs` are the proofs of the claims there, and `doubts` the requirements of a function that is called that may not follow."""
    number: int
    line: int
    state: State
    variables: list[tuple[str, str]] = field(default_factory=list)
    abbreviations: list[tuple[str, str, str]] = field(default_factory=list)
    definitions: list[tuple[str, str, str]] = field(default_factory=list)
    memories: list[str] = field(default_factory=list)
    facts: list[Fact] = field(default_factory=list)
    passed: list[Fact] = field(default_factory=list)
    nexts: list[Node] = field(default_factory=list)
    steps: int = 0
    cost: int = 1
    form: tuple[Any, ...] = ()
    end: Node | None = None
    test: tuple[str, str, str, int, int] | None = None
    selects: tuple[Span, int] | None = None
    proofs: list[str] = field(default_factory=list)
    doubts: list[str] = field(default_factory=list)
    budget: Form = field(default_factory=dict)
    spent: Form = field(default_factory=dict)

    @property
    def whole(self) -> str:
        """Returns the name of the proof that the next word can have an effect."""
        return f"whole_{self.number}"

    @property
    def go(self) -> str:
        """Returns the name of the proof of the run from this state."""
        return f"go_{self.number}"


def number(key: Key) -> str:
    """Returns a number as a term."""
    return key if isinstance(key, str) else f"number_of {key.base} {argument(key.name)} {key.lo} {key.hi}"


def signed_parts(form: Form) -> tuple[Form, Form]:
    """Returns the terms of a sum that are added, and those that are subtracted, with positive factors."""
    added = {key: many for key, many in form.items() if many >= 0}
    return added, {key: -many for key, many in form.items() if many < 0}


def form_text(form: Form) -> str:
    """Returns a sum as a term. A difference is one of the prover, which is zero if it would be negative."""
    added, less = signed_parts(form)
    if less:
        return f"({form_text(added)}) - ({form_text(less)})"
    parts = [number(key) if many == 1 else f"{many} * {number(key)}" for key, many in form.items() if key is not None]
    constant = form.get(None, 0)
    return " + ".join([*parts, *([str(constant)] if constant or not parts else [])])


def equals_text(left: str, form: Form) -> str:
    """Returns the statement that a number is equal to a sum, which is then not negative. The terms that are subtracted are on the left
    side."""
    added, less = signed_parts(form)
    return f"{left} + {form_text(less)} ≡ {form_text(added)}" if less else f"{left} ≡ {form_text(form)}"


def argument(term: str) -> str:
    """Returns a term in parentheses, if it needs them as an argument."""
    is_closed = term.startswith("(") and term.endswith(")")
    return term if term.replace(".", "").replace("_", "").isalnum() or is_closed else f"({term})"


def added_form(one: Form, other: Form) -> Form:
    """Returns the sum of two sums."""
    return {key: one.get(key, 0) + other.get(key, 0) for key in (*one, *(key for key in other if key not in one))}


def keys_in(*forms: Form) -> tuple[Key, ...]:
    """Returns the numbers in some sums."""
    return tuple(key for form in forms for key in form if key is not None)


def register_at(ram: str, address: int) -> str:
    """Returns a register of memory as a term."""
    return f"register_at {ram} {address:#05x}"


def place_of(name: str) -> tuple[str, int] | None:
    """Returns the memory and the address of a register of memory; None of another register."""
    words = name.split(" ")
    return (words[1], int(words[2], 16)) if words[0] == "register_at" else None


def status_bit(bit: int, status: str) -> str:
    """Returns a status bit as a number; `status` is the term of the status bits."""
    return f"carry_digit (is_status_set {bit} {with_status(status)})"


def with_status(status: str) -> str:
    """Returns the processor with some status bits as a term."""
    return f"(record s.processor {{ status = {status} }})"


def status_byte(status: str) -> str:
    """Returns the status bits S7 to S0 as a number."""
    return f"({status} % 256)"
