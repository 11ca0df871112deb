"""The flow of control in the words of banks: which words are executed, which routines call which, and in which base they return.

Everything here is certain only as far as the words say it. A computed jump, a word for a peripheral, and data after a call of another
ROM make it uncertain which words are executed; `Flow.is_uncertain` then says so."""
import re
from typing import Any, Iterable, Iterator, NamedTuple, Optional, Sequence, TypeVar, Union

from .sources import Assembled

CLEAR, SET, EITHER = "clear", "set", "either"
HEX, DECIMAL, UNKNOWN = "hexadecimal", "decimal", "unknown"

RTN, RTN_IF_SET, RTN_IF_CLEAR, LOAD = 0x3E0, 0x360, 0x3A0, 0x130
SET_HEX, SET_DECIMAL = 0x260, 0x2A0
BANKS = {0x100: 1, 0x180: 2, 0x140: 3, 0x1C0: 4}
# GOTO ADR and GOTO KEY; PUSH ADR, which prepares a jump; XQ->GO and POP ADR, which change the return addresses.
COMPUTED, PREPARES, RETURNS_CHANGED = (0x1E0, 0x230), 0x170, (0x020, 0x170, 0x1B0)
# The low six bits of words that hand over to a peripheral, and of words that test a flag or a pointer.
HANDS_OVER, OF_FLAGS, OF_POINTERS, OF_PERIPHERALS = 0x24, 0x0C, 0x14, 0x2C
# The words of the other tests, and R=R-1, which looks like one.
TESTS, NO_TEST = (0x120, 0x160, 0x3CC), 0x3D4
# The numbers of operations on a field that set the carry by their result, and of the one that always sets it.
FIRST_SUM, LAST_TEST, COMPLEMENT = 9, 27, 21

# Instructions that set the pointer, and those that use it.
SETS_POINTER = re.compile("R= ")
USES_POINTER = re.compile(r"LD@R |\?R= |R=R[+-]1|G=C|C=G|C<>G|.* (?:@R|R<|P-Q)\Z")

# Where HP's ROM continues after a function.
NORMAL_END = 0x00F0

# The number of a bank and a place in it; the target of a call, a node or the address of another ROM; a call, by its node and its target;
# a return of a routine: its node, the base, and the node of the SETDEC that set it; and a state: a node, the carry, the base, and this
# node of the SETDEC.
Node = tuple[int, int]
Target = Union[int, Node]
Call = tuple[Node, Target]
Return = tuple[Node, str, Optional[Node]]
State = tuple[Node, str, str, Optional[Node]]
# A state of any kind, which begins with its node.
AnyState = TypeVar("AnyState", bound=tuple[Any, ...])


def nodes_in(targets: Iterable[Target]) -> list[Node]:
    """Returns the targets that are nodes, without the addresses of other ROMs."""
    return [target for target in targets if not isinstance(target, int)]


class Word(NamedTuple):
    """An instruction: its words, what it is, its target, the carry with which it goes there, and the carry that it leaves. `what` is call,
    go, return, bank, computed or empty; `target` is an address, or the number of a bank."""
    size: int
    what: str
    target: Optional[int]
    carry: str
    leaves: str


def carry_of(word: int) -> str:
    """Returns the carry that an instruction of one word leaves."""
    if word & 3 == 2:
        operation = word >> 5
        return SET if operation == COMPLEMENT else EITHER if FIRST_SUM <= operation <= LAST_TEST else CLEAR
    is_test = word in TESTS or word & 0x3F in (OF_FLAGS, OF_PERIPHERALS, HANDS_OVER) or word & 0x3F == OF_POINTERS and word != NO_TEST
    return EITHER if is_test else CLEAR


def decoded(words: list[int], place: int, origin: int) -> Word:
    """Returns the instruction at a place of words that begin at an address."""
    word, behind = words[place], words[place + 1] if place + 1 < len(words) else None
    if word & 3 == 1 and behind is not None:
        target = word >> 2 | behind >> 2 << 8
        return Word(2, "go" if behind & 2 else "call", target, SET if behind & 1 else CLEAR, CLEAR)
    if word & 3 == 3:
        distance = (word >> 3) - (0x80 if word & 0x200 else 0)
        return Word(1, "go", origin + place + distance & 0xFFFF, SET if word & 4 else CLEAR, CLEAR)
    if word == LOAD:
        return Word(2, "", None, EITHER, CLEAR)
    if word in (RTN, RTN_IF_SET, RTN_IF_CLEAR):
        return Word(1, "return", None, {RTN: EITHER, RTN_IF_SET: SET, RTN_IF_CLEAR: CLEAR}[word], CLEAR)
    if word in BANKS:
        return Word(1, "bank", BANKS[word], EITHER, CLEAR)
    if word in COMPUTED:
        return Word(1, "computed", None, EITHER, CLEAR)
    return Word(1, "", None, EITHER, carry_of(word))


class Routine(NamedTuple):
    """What is executed from a place on, without the routines that it calls: its calls (the node of each, and its target, a node or the
    address of another ROM), whether it can return, and whether it changes return addresses."""
    calls: list[Call]
    can_return: bool
    is_tricky: bool


class Next(NamedTuple):
    """What can follow an instruction: `next`, `go`, `call`, `return`, `leave` or `computed`; the node after it, for a call its targets, and
    the carry."""
    what: str
    into: Optional[Node]
    targets: list[Target]
    carry: str


class Flow:
    """The flow in several banks, which are assembled sources."""

    def __init__(self, units: Sequence[Assembled]) -> None:
        """Finds the lines of the banks by their places."""
        self.units, self.is_uncertain = units, False
        self.origins = [int(unit.page, 16) << 12 for unit in units]
        # The lines of each bank by their places, and the places of words that are never executed as a line: names and table entries.
        self.lines: list[dict[int, int]] = []
        self.data: list[set[int]] = []
        for unit in units:
            known = [at for at in range(len(unit.lines)) if unit.words_of_line(at) and at not in unit.whole.fills]
            self.lines.append({place: at for at in known for place in range(unit.places[at], unit.places[at + 1])})
            self.data.append({place for at in known if self.first(unit, at) in ("NAME", "ENTRY", "FOCAL")
                              for place in range(unit.places[at], unit.places[at + 1])})
        self.modes: dict[Node, set[str]] = {}
        self.returned: dict[tuple[Node, str], set[Return]] = {}
        self.walks: dict[Node, list[Call]] = {}
        self.routines: dict[Node, Routine] = {}

    @staticmethod
    def first(unit: Assembled, at: int) -> str:
        """Returns the first word of a line's instruction."""
        return unit.lines[at].instruction().partition(" ")[0]

    def is_code(self, node: Node) -> bool:
        """Returns whether a node is a word that can be executed."""
        bank, place = node
        return place in self.lines[bank] and place not in self.data[bank]

    def word(self, node: Node) -> Word:
        """Returns the instruction at a node."""
        bank, place = node
        return decoded(self.units[bank].words, place, self.origins[bank])

    def line(self, node: Node) -> int:
        """Returns the line of a node."""
        return self.lines[node[0]][node[1]]

    def name(self, target: Target) -> str:
        """Returns a name for a node or an address: its label, or the address."""
        if isinstance(target, int):
            return f"{target:04X}"
        unit, place = self.units[target[0]], target[1]
        return next((name for name, at in unit.labels.items() if at == place and self.is_own(unit, name)), unit.address(place))

    @staticmethod
    def is_own(unit: Assembled, name: str) -> bool:
        """Returns whether a label is in the source of a bank itself."""
        return any(line.label == name for line in unit.lines)

    def nodes_at(self, bank: int, address: int) -> list[Node]:
        """Returns the nodes at an address, for a jump in a bank; none if it is in another ROM. A jump into another page of several banks
        may lead into each of them."""
        if address & 0xF000 == self.origins[bank]:
            return [(bank, address & 0xFFF)]
        return [(at, address & 0xFFF) for at, origin in enumerate(self.origins) if origin == address & 0xF000]

    def in_bank(self, node: Node, number: Optional[int]) -> Optional[Node]:
        """Returns the node after a word that activates a bank of its page; None if that bank is not known."""
        bank, place = node
        return next(((at, place + 1) for at, unit in enumerate(self.units)
                     if self.origins[at] == self.origins[bank] and unit.number == number), None)

    def after_call(self, node: Node, targets: list[Node]) -> Node:
        """Returns the node after a call. Data after a call of another ROM may be read by it, and is skipped."""
        bank, place = node[0], node[1] + 2
        unit = self.units[bank]
        while not targets and place in self.lines[bank] and self.first(unit, self.lines[bank][place]) == "CON":
            self.is_uncertain = True
            place += 1
        return bank, place

    def steps(self, node: Node, carry: str) -> Iterator[Next]:
        """Yields what can follow an instruction."""
        word, (bank, place) = self.word(node), node
        raw = self.units[bank].words[place]
        self.is_uncertain |= word.what == "computed" or raw == PREPARES or raw & 0x3F == HANDS_OVER
        behind = bank, place + word.size
        is_taken, is_passed = EITHER in (word.carry, carry) or carry == word.carry, word.what == "" or carry != word.carry != EITHER
        if word.what == "bank":
            into = self.in_bank(node, word.target)
            self.is_uncertain |= into is None
            yield Next("next" if into else "leave", into, [], CLEAR)
        elif word.what == "computed":
            yield Next("computed", None, [], CLEAR)
        elif word.what and is_taken:
            targets = self.nodes_at(bank, word.target) if word.target is not None else []
            if word.what == "call":
                yield Next("call", None, [*targets] or [word.target or 0], CLEAR)
                behind = self.after_call(node, targets)
                is_passed = is_passed and carry == EITHER and bool(targets)
            elif word.what == "return" or word.target == NORMAL_END:
                yield Next("return", None, [], CLEAR)
            elif not targets:
                yield Next("go", None, [], CLEAR)
            else:
                yield from (Next("go", one, [], CLEAR) for one in targets)
        if is_passed:
            yield Next("next", behind, [], word.leaves)

    def each_once(self, rest: list[AnyState]) -> Iterator[AnyState]:
        """Yields the states of a list, each once and only if an instruction is at its node. While a state is used, those that follow it
        are added to the list."""
        seen: set[AnyState] = set()
        while rest:
            state = rest.pop()
            if state not in seen and self.is_code(state[0]):
                seen.add(state)
                yield state

    def reached(self, roots: Iterable[Node]) -> tuple[set[Node], set[Node]]:
        """Returns all places of the banks that are executed from some nodes on, also in the routines that are called."""
        nodes: set[Node] = set()
        rest = [(root, CLEAR) for root in roots]
        for node, carry in self.each_once(rest):
            nodes.add(node)
            for what, into, targets, left in self.steps(node, carry):
                if what == "call":
                    own = nodes_in(targets)
                    rest += [(one, CLEAR) for one in own]
                    rest.append((self.after_call(node, own), CLEAR))
                elif into is not None:
                    rest.append((into, left))
        return {(bank, place + at) for bank, place in nodes for at in range(self.word((bank, place)).size)}, nodes

    def routine(self, start: Node, returns: Optional[set[Node]] = None) -> Routine:
        """Returns what is executed from a node on. `returns` are the routines that are known to return; without it, all of them do."""
        calls: list[Call] = []
        rest, can_return, is_tricky = [(start, CLEAR)], False, False
        for node, carry in self.each_once(rest):
            is_tricky |= self.units[node[0]].words[node[1]] in RETURNS_CHANGED
            for what, into, targets, left in self.steps(node, carry):
                if what == "call":
                    calls += [(node, one) for one in targets]
                    if returns is None or any(isinstance(one, int) or one in returns for one in targets):
                        rest.append((self.after_call(node, nodes_in(targets)), CLEAR))
                elif into is not None:
                    rest.append((into, left))
                can_return |= what in ("return", "leave", "computed") or what == "go" and into is None
        return Routine(list(dict.fromkeys(calls)), can_return, is_tricky)

    # Calls.

    def all_routines(self, roots: Iterable[Node]) -> dict[Node, Routine]:
        """Returns the routines from some nodes on, with all that they call, by their nodes."""
        rest = list(roots)
        while rest:
            node = rest.pop()
            if node not in self.routines:
                self.routines[node] = self.routine(node)
                rest += nodes_in(target for _, target in self.routines[node].calls)
        return self.routines

    def deepest(self, node: Node, above: tuple[Node, ...] = ()) -> list[Call]:
        """Returns the longest chain of calls in a routine: the node of each call and its target. A routine that changes return addresses
        counts as one call."""
        routine = self.routines[node]
        best: list[Call] = []
        for call, target in routine.calls:
            inner = [] if isinstance(target, int) or target in (node, *above) or self.routines[target].is_tricky else \
                self.deepest_of(target, (node, *above))
            if 1 + len(inner) > len(best):
                best = [(call, target), *inner]
        return best

    def deepest_of(self, node: Node, above: tuple[Node, ...]) -> list[Call]:
        """Returns the longest chain of calls in a routine that is called, from what is known already if it is complete."""
        if node not in self.walks:
            found = self.deepest(node, above)
            if len(above) > 8:
                return found
            self.walks[node] = found
        return self.walks[node]

    def endless(self, roots: Iterable[Node]) -> Iterator[tuple[Node, list[str]]]:
        """Yields the chains of calls that never end: the node of a call, and the names of the chain."""
        routines = self.all_routines(roots)
        returns: set[Node] = set()
        while True:
            found = {node: self.routine(node, returns) for node in routines if node not in returns}
            more = {node for node, routine in found.items() if routine.can_return}
            if not more:
                break
            returns |= more
        told: set[Node] = set()
        for node in sorted(found):
            chain: list[Node] = []
            calls: list[Node] = []
            now: Optional[Node] = node
            while now is not None and now in found and now not in chain:
                call = next(((call, into) for call, into in found[now].calls if not isinstance(into, int) and into in found), None)
                chain.append(now)
                calls += [call[0]] if call else []
                now = call[1] if call else None
            if now == node and node not in told:
                told.update(chain)
                yield calls[0], [self.name(one) for one in [*chain, node]]

    # The base.

    def bases(self, start: Node, base: str = HEX, is_called: bool = False) -> set[Return]:
        """Returns the returns of a routine: for each the node, the base, and the node of the SETDEC that set it (None if the base was
        decimal before). Notes the bases at each node."""
        key = start, base
        if is_called and key in self.returned:
            return self.returned[key]
        found: set[Return] = set()
        rest: list[State] = [(start, CLEAR, base, None)]
        self.returned[key] = set()
        for node, carry, base, since in self.each_once(rest):
            self.modes.setdefault(node, set()).add(base)
            raw = self.units[node[0]].words[node[1]]
            base, since = (HEX, None) if raw == SET_HEX else (DECIMAL, node) if raw == SET_DECIMAL else (base, since)
            base = UNKNOWN if raw in RETURNS_CHANGED else base
            for what, into, targets, left in self.steps(node, carry):
                if what == "return":
                    found.add((node, base, since))
                elif what == "call":
                    rest += self.after(node, targets, base, since)
                elif into is not None:
                    rest.append((into, left, base, since))
        self.returned[key] = found
        return found

    def after(self, node: Node, targets: list[Target], base: str, since: Optional[Node]) -> list[State]:
        """Returns the states after a call, by the bases in which the called routines return."""
        own = nodes_in(targets)
        behind = self.after_call(node, own)
        if not own:
            return [(behind, CLEAR, UNKNOWN, None)]
        return [(behind, CLEAR, left, set_at or (since if left == DECIMAL else None))
                for one in own for _, left, set_at in self.bases(one, base, True)]

    # The pointer.

    def text(self, node: Node) -> str:
        """Returns the instruction of a node."""
        return self.units[node[0]].lines[self.line(node)].instruction()

    def may_set_pointer(self, targets: list[Target]) -> bool:
        """Returns whether one of the called routines may set the pointer: a routine of another ROM may."""
        own = nodes_in(targets)
        return len(own) < len(targets) or any(SETS_POINTER.match(self.text(node)) for node in self.reached(own)[1])

    def without_pointer(self, start: Node) -> list[Node]:
        """Returns the instructions of a routine that use the pointer, although none before them on any path sets it."""
        found: dict[Node, set[bool]] = {}
        rest = [(start, CLEAR, False)]
        for node, carry, is_set in self.each_once(rest):
            text = self.text(node)
            if USES_POINTER.match(text):
                found.setdefault(node, set()).add(is_set)
            is_set |= bool(SETS_POINTER.match(text))
            for what, into, targets, left in self.steps(node, carry):
                if what == "call":
                    own = nodes_in(targets)
                    rest += [(one, CLEAR, is_set) for one in own]
                    rest.append((self.after_call(node, own), CLEAR, is_set or self.may_set_pointer(targets)))
                elif into is not None:
                    rest.append((into, left, is_set))
        return [node for node, states in found.items() if states == {False}]
