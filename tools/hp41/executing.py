"""Symbolic execution: the states that a function reaches from every state that meets its requirements, as a tree of nodes."""
from __future__ import annotations

from typing import Callable, Sequence

from .activebanks import PAGES, ActiveBanks
from .budgets import reachable, summarise
from .claimproofs import prepare
from .claims import AnyClaim, Claim, Decimal, Others, Sum
from .codes import ADDRESSES, Code, Loop, NotProved, Result, form_of, key_of, known_at_start, measure_of, plain, register_of
from .knowledge import Knowledge
from .linear import contradicts, row
from .linked import Known
from .symbols import WIDE, Fact, Form, Node, Ram, Span, State, Value, Way, keys_in, literal, start_of
from .wordsteps import Step

# How many states a function may reach.
MOST_NODES = 400


class Execution:
    """Executes a function from a label."""

    def __init__(self, code: Code, label: str, execute: Callable[[str], Result | None], under_way: list[str]) -> None:
        """Begins without nodes. `execute` returns the result of another function, and `under_way` are the labels that are being executed."""
        self.code, self.label, self.execute, self.under_way = code, label, execute, under_way
        self.contract = code.contracts[label]
        self.knowledge = Knowledge()
        self.banks = ActiveBanks(code, label)
        self.nodes: list[Node] = []
        self.calls: list[str] = []
        self.labels = {code.labels[name]: name for name, contract in code.contracts.items() if contract.is_function}
        self.loop_labels = {code.labels[name]: name for name, contract in code.contracts.items() if contract.is_loop}
        # The loops that are found, those whose rounds are executed, and the one whose round is being executed.
        self.loops: dict[int, Loop] = {}
        self.done: list[Loop] = []
        self.now: Loop | None = None
        self.ends: list[Node] = []

    def called(self, place: int, line: int) -> Result | None:
        """Returns the result of the function with claims at a place; None if there is none."""
        label = self.labels.get(place)
        if label is None:
            return None
        if label in self.under_way:
            raise NotProved(line, f"{label} calls itself, expected no recursion: there is room for four return addresses only")
        found = self.execute(label)
        if found is None:
            raise NotProved(line, f"{label} is called here, but its own claims are not proved: see the message about {label}")
        return found

    def result(self) -> Result:
        """Returns what is known of the function."""
        known = known_at_start(self.contract)
        state = State(self.code.labels[self.label] % ADDRESSES, ("r0", "r1", "r2", "r3"), known)
        root = self.node(state, self.contract.line, [])
        self.knowledge.root = root
        self.knowledge.rams["s.ram"] = Ram("s.ram", "start", root, "is_memory")
        for name in WIDE:
            self.knowledge.add(Value(f"s.processor.{name}", "start", root, register_of(root, name)))
        self.cut([*self.contract.requires, *self.contract.ensures])
        self.assume(root, plain(self.contract.requires), state, "required")
        self.follow(root, (self.banks.place(state),))
        self.prune_for_loops(root)
        while len(self.done) < len(self.loops):
            self.now = self.loops[min(address for address, loop in self.loops.items() if loop not in self.done)]
            self.done.append(self.now)
            self.run_rounds(self.now, root)
        self.now = None
        self.knowledge.settle()
        self.prune([root, *(root for loop in self.done for root in loop.roots)])
        result = Result(self.label, self.contract, root, self.knowledge, self.banks, self.ends, calls=self.calls, loops=self.done)
        summarise(result)
        for end in self.ends:
            self.banks.check_end(end.line, end.state, self.contract.ensures)
        prepare(result)
        return result

    def cut(self, claims: Sequence[AnyClaim]) -> None:
        """Separates the places that some claims name, and notes whether they are about decimal numbers and about memory."""
        for claim in claims:
            for one in claim.atoms():
                if one.lo is not None:
                    self.knowledge.cut(one.lo, one.hi or 0)
                if one.address is not None:
                    self.knowledge.use(one.address)
                self.knowledge.is_decimal |= one.base == 10 or isinstance(claim, Decimal)

    # Loops.

    def arrive(self, node: Node) -> None:
        """Ends a way at the label of a loop: the loop is entered there, or a round has ended."""
        place = self.banks.place(node.state)
        label = self.loop_labels[place]
        contract = self.code.contracts[label]
        if contract.decreases is None:
            raise NotProved(contract.line, f"the loop {label} has no `decreases`, expected a number that each round makes smaller, as in "
                                           "`decreases C.SX`")
        loop = self.loops.setdefault(place, Loop(label, node.state.pc, contract))
        if loop is self.now:
            node.form = "again", loop
            loop.backs.append(node)
            return
        if loop in self.done:
            raise NotProved(node.line, f"a round of the loop {self.now.label if self.now else ''} goes back to the loop {label}, expected "
                                       "no loop in a loop: make a function with claims of its own of the inner one")
        node.form = "enter", loop
        loop.entries.append(node)
        if self.now:
            other = self.now.after
            if other is not None and other is not loop:
                raise NotProved(node.line, f"after the loop {self.now.label} the function enters the loop {other.label} in some cases "
                                           f"and the loop {label} in others, expected the same loop in all cases")
            self.now.after = loop
            self.now.leaves.append(node)

    def run_rounds(self, loop: Loop, root: Node) -> None:
        """Executes a round, from a state in which every component that a round may change is unknown."""
        firsts = [node.state for node in loop.entries]
        names = {name for state in firsts for name in state.terms if not self.is_fixed(name, firsts, root.state)}
        self.cut([*loop.contract.invariant])
        self.cut([Claim(loop.contract.decreases or Sum(), "=", Sum(), "", 0)])
        if any(state.returns[0] != "r0" for state in firsts):
            raise NotProved(loop.contract.line, f"the loop {loop.label} is in a subroutine without claims, expected a function: give the "
                                                "subroutine claims")
        ended = len(self.ends)
        lost: set[int] = set()
        while names != loop.names or lost != loop.lost or not loop.roots:
            self.clear(loop, ended)
            loop.names, loop.lost = set(names), set(lost)
            self.run_round(loop, firsts[0], None)
            states = [*firsts, *(back.state for back in loop.backs)]
            names |= {name for state in states for name in state.terms
                      if name not in names and state.of(name) != loop.roots[0].state.of(name)}
            if PAGES in names:
                raise NotProved(loop.contract.line, f"the rounds of the loop {loop.label} begin with different active banks, expected the "
                                                    "same one")
            lost |= {at for state in states for at, one in enumerate(state.returns) if one != loop.roots[0].state.returns[at]}
        if self.contract.steps and self.contract.steps.is_exact:
            self.clear(loop, ended)
            self.run_round(loop, firsts[0], 1)
            self.run_round(loop, firsts[0], 0)
        if 0 in lost:
            raise NotProved(loop.contract.line, f"a round of {loop.label} changes the return address of the function, expected that each "
                                                "round keeps it")

    @staticmethod
    def is_fixed(name: str, firsts: list[State], start: State) -> bool:
        """Returns whether a component is the same whenever a loop is entered, and known."""
        values = {state.of(name) for state in firsts}
        return values == {start.of(name)} or len(values) == 1 and (name == PAGES or literal(firsts[0].of(name)))

    def clear(self, loop: Loop, ended: int) -> None:
        """Forgets the rounds of a loop."""
        del self.ends[ended:]
        for other in self.loops.values():
            other.entries = [node for node in other.entries if all(node is not one for one in loop.leaves)]
        self.loops = {address: other for address, other in self.loops.items() if other.entries}
        loop.backs, loop.roots, loop.leaves, loop.after = [], [], [], None

    def run_round(self, loop: Loop, first: State, left: int | None) -> None:
        """Executes a round. `left` is 1 for a round in which `decreases` is one more than after it, 0 for the last one, in which it is
        zero, and None for any round."""
        node = self.round_root(loop, first, left)
        loop.roots = [*loop.roots, node] if left == 0 else [node]
        self.follow(node, (self.banks.place(node.state),))
        self.prune_for_loops(node)

    def round_root(self, loop: Loop, first: State, left: int | None) -> Node:
        """Returns the node at the beginning of a round."""
        count = len(self.nodes)
        t, at = f"t_{count}", f"at_{count}"
        terms = {**first.terms, **{name: start_of(name, t) for name in sorted(loop.names)}}
        returns = tuple(f"{at}.return_{place}" if place in loop.lost else one for place, one in enumerate(first.returns))
        node = self.node(State(loop.address, returns, terms), loop.contract.line, [])
        name = f"left_{count}"
        shown = name if left is None else f"(suc {name})" if left else "0"
        node.variables = [*([(name, "ℕ")] if left != 0 else []), (t, "Nut"), (at, f"At_{loop.label} {shown} {t}")]
        self.unknown(node, t, at, loop.names)
        node.passed = list(self.nodes[0].passed)
        measure = measure_of(loop, node.state, self.nodes[0].state)
        counted: Form = {name: 1, None: left or 0} if left != 0 else {}
        keys = (*keys_in(measure), *([name] if left != 0 else []))
        known = Known(t, f"{at}.is", "s")
        proof = known.counted(node, loop.contract.decreases or Sum(), self.nodes[0].state, shown, f"{at}.counted")
        node.passed.append(Fact(proof, "", "", keys, node, row(counted, "=", measure), True))
        self.assume(node, loop.contract.invariant, self.nodes[0].state, f"{at}.invariant", known)
        return node

    def unknown(self, node: Node, t: str, known: str, names: Sequence[str] | set[str]) -> None:
        """Adds the registers of a state of which only claims are known."""
        self.knowledge.owners[t] = node
        for one in WIDE:
            if one in names:
                self.knowledge.add(Value(start_of(one, t), "call", node, register_of(node, one)))
        if "ram" in names:
            self.knowledge.rams[f"{t}.ram"] = Ram(f"{t}.ram", "other", node, f"{known}.memory")

    def assume(self, node: Node, claims: Sequence[AnyClaim], before: State, name: str, known: Known | None = None) -> None:
        """Adds claims that are true at a node: requirements, an invariant, or what a function that was called has left. `known` says what
        the state is of which only these claims are known."""
        self.cut(claims)
        for at, claim in enumerate(claims, 1):
            proof = f"{name}_{at}"
            if known and isinstance(claim, (Claim, Decimal)):
                proof = known.claimed(node, claim, before, proof)
            if isinstance(claim, Claim):
                left, right = (form_of(side, node.state, before) for side in (claim.left, claim.right))
                node.passed.append(Fact(proof, "", "", keys_in(left, right), node, row(left, claim.relation, right), True))
            if isinstance(claim, Decimal):
                key = key_of(claim.atom, before if claim.atom.old else node.state)
                assert isinstance(key, Span)
                self.knowledge.decimals.declare(key, proof)
            if isinstance(claim, Others) and node.state.of("ram") != before.of("ram"):
                ram = self.knowledge.rams[node.state.of("ram")]
                ram.others, ram.proof, ram.before = claim.addresses, f"{name}_{at}", before.of("ram")

    def prune_for_loops(self, root: Node) -> None:
        """Removes loops that no state enters. What was found for this is forgotten, because more places may be separated later."""
        if any(node.form[:1] == ("enter",) for node in reachable(root)):
            self.knowledge.settle()
            self.prune([root])
            self.knowledge.forget()
            self.loops = {address: loop for address, loop in self.loops.items() if loop.entries}

    def prune(self, left: list[Node]) -> None:
        """Finds the ways that no state takes, because facts contradict each other there, and removes them."""
        dropped = []
        while left:
            node = left.pop()
            if node.form[0] == "failed":
                raise node.form[1]
            for way in node.form[2] if node.form[0] == "split" else []:
                if way.facts:
                    keys = [key for fact in way.facts for key in fact.keys]
                    facts = self.knowledge.reach(keys, way.last.passed, False)
                    if contradicts(one for fact in facts for one in fact.rows):
                        way.refuted = facts
                        dropped.append(way)
                        for fact in facts:
                            fact.is_needed = True
            if node.form[0] == "split":
                node.nexts = [way.node for way in node.form[2] if way.node and way.refuted is None]
            left += node.nexts
        self.forget(dropped)

    def forget(self, dropped: list[Way]) -> None:
        """Removes the returns, and the rounds, on ways that no state takes."""
        left = [way.last for way in dropped]
        while left:
            node = left.pop()
            ends = [node, node.end] + ([way.end for way in node.form[2]] if node.form[:1] == ("split",) else [])
            self.ends = [end for end in self.ends if all(end is not one for one in ends)]
            for loop in self.loops.values():
                for name in ("entries", "backs", "leaves"):
                    setattr(loop, name, [one for one in getattr(loop, name) if one is not node])
            left += node.nexts + ([way.node for way in node.form[2] if way.node] if node.form[:1] == ("split",) else [])
        for loop in self.loops.values():
            loop.after = loop.after if loop.leaves else None

    def node(self, state: State, line: int, passed: list[Fact]) -> Node:
        """Returns a new node."""
        if len(self.nodes) >= MOST_NODES:
            raise NotProved(line, f"the function has too many ways: found more than {MOST_NODES} states, expected fewer: divide it into "
                                  "functions with claims of their own")
        self.nodes.append(Node(len(self.nodes), line, state, passed=list(passed)))
        return self.nodes[-1]

    def follow(self, node: Node, way: tuple[int, ...]) -> None:
        """Executes the instructions from a node to the end of the function."""
        while True:
            place = self.banks.place(node.state)
            if place in self.loop_labels and not (self.now and node in self.now.roots):
                try:
                    return self.arrive(node)
                except NotProved as why:
                    node.form = "failed", why
                    return None
            if place in way[:-1]:
                node.form = "failed", NotProved(node.line, f"the instruction goes back to {node.state.pc:04X}, expected no loop: give the "
                                                "label there an `invariant` and a `decreases`")
                return None
            try:
                instruction = self.code.at(place, node.line)
                node.line = instruction.line
                nexts = Step(self, node, instruction).nexts()
            except NotProved as why:
                # It counts only if a state comes here, which is decided later.
                node.form = "failed", why
                return None
            node.nexts = nexts
            if not nexts:
                return None
            for one in nexts[1:]:
                self.follow(one, (*way, self.banks.place(one.state)))
            node = nexts[0]
            way = (*way, self.banks.place(node.state))
