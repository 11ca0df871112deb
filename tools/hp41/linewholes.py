"""Follows the lines of a program that computes with whole numbers: its sums and differences are exact, tests compare whole numbers, and
each loop is followed once, from a label at which its invariant is true."""
from __future__ import annotations

from dataclasses import replace
from typing import TYPE_CHECKING, Callable, Hashable

from .claims import Wrong
from .codes import NotProved
from .lineclaims import ZERO, Condition, LineContract, LoopContract, Relation, Term, old, plain
from .linear import Row
from .linebounds import bound_of, is_known, rows_of
from .linecounters import COUNT_BOUND, FINAL_BOUND, CounterWalk
from .linecounts import Count
from .lineflow import Flow
from .linepoints import PLACES, START, Call, Fact, Loop, Point, State
from .linesteps import NO_START, WHOLE_PARTS, asked, into, value_of, written_in
from .lineterms import ProgramLine

if TYPE_CHECKING:
    from .linetheorems import Program

# The first whole number that is too great.
BOUND = 10 ** 10

# The comparisons of natural numbers, and those of a test's two outcomes: whether the first number is that of the left side.
SIGNS = {"=": "≡", "<": "<", "<=": "≤"}


class WholeWalk(CounterWalk):
    """All paths through a program that computes with whole numbers, from a label on."""

    has_wholes = True

    def __init__(self, lines: list[ProgramLine], contract: LineContract, is_start: bool, called: Callable[[int], Call] | None,
                 loops: dict[int, LoopContract]) -> None:
        """Follows all paths. `loops` has the claims about loops, by the places of their labels."""
        self.claimed = loops
        self.open: list[int] = []
        # The state before the program, in which `requires` is true.
        self.begin_state = START
        self.flow = Flow(lines, self.callee, written_in)
        super().__init__(lines, contract, is_start, called)

    # Whole numbers.

    def nat(self, term: Term, bound: int = BOUND) -> str | None:
        """Returns a value as a natural number of the definitions; None if it is not known to be a whole number. Numbers are below a
        bound."""
        found: str | None = None
        if term.op == "left":
            found = self.nat(term.args[0], bound) if term.args else None
        elif term.op == "whole":
            found = term.name
        elif term.op == "old":
            found = f"whole_{term.name.lower()}" if term.name in self.contract.wholes else None
        elif term.op == "zero":
            found = "0"
        elif term.op == "number":
            value = value_of(term.name)
            found = str(int(value)) if value is not None and value == int(value) and 0 <= value < bound else None
        elif term.op in WHOLE_PARTS:
            found = self.nat_of_part(term, bound)
        elif term.op in ("+", "-", "*") and term.plain() not in self.required:
            left, right = (self.nat(one, bound) for one in term.args)
            is_linear = term.op != "*" or any(one is not None and one.isdigit() for one in (left, right))
            found = f"({left} {term.op} {right})" if left is not None and right is not None and is_linear else None
        return found

    def is_number(self, term: Term) -> bool:
        """Returns whether a value is known to be a number."""
        return self.nat(term) is not None or self.parts_of(term) is not None or super().is_number(term)

    def need_number(self, at: int, term: Term) -> None:
        """Checks that a value is known to be a number."""
        if self.nat(term) is None and self.parts_of(term) is None:
            super().need_number(at, term)

    def side(self, term: Term, state: State, relation: Relation) -> str:
        """Returns one side of a claim at a state, as a natural number of the definitions."""
        here = at_state(term, state)
        found = self.nat(here, BOUND ** 10)
        if found is None:
            unknown = next((one for one in here.parts() if self.nat(one, BOUND ** 10) is None), here)
            raise Wrong(relation.line, 1, f"`{relation.text}`: {unknown.text()} is not known to be a whole number: claim it, for example "
                        "`X is a whole number`")
        return found

    def compared(self, relation: Relation, state: State) -> tuple[str, str, str]:
        """Returns a claim at a state, as a comparison of natural numbers."""
        left, right, sign = self.side(relation.left, state, relation), self.side(relation.right, state, relation), relation.relation
        if sign in (">", ">="):
            left, right, sign = right, left, {">": "<", ">=": "<="}[sign]
        if sign == "<>":
            raise Wrong(relation.line, 1, f"`{relation.text}`: <> is not supported here: write < or >")
        return left, SIGNS[sign], right

    def given(self) -> list[tuple[str, str, str]]:
        """Returns the comparisons that the program requires, as comparisons of natural numbers."""
        return [self.compared(one, self.begin_state) for one in self.contract.relations]

    def fresh(self, value: Term) -> Term:
        """Returns a register that contains a value, with a name of its own."""
        return Term("left", (value.plain(),), f"w_{self.count}")

    # Lines.

    def come(self, made: Point, value: Term) -> None:
        """Adds the points after a line that brings a value into X."""
        if made.state.lift is None or value.op != "number" or self.nat(value) is None:
            if not self.typed(made, value):
                super().come(made, value)
            return
        new = self.fresh(value)
        made.kind = "exact"
        made.after = [self.point(made.at + 1, made.state.coming(new, made.state.lift), (*made.facts, Fact(left=new)))]

    def follow(self, made: Point, text: str) -> None:
        """Adds the points after a point."""
        if text in ("CLX", "CLST"):
            new = self.fresh(ZERO)
            made.kind = "exact"
            after = replace(made.state, x=new, lift=False)
            if text == "CLST":
                after = replace(made.state, x=new, y=new, z=new, t=new, lift=True)
            made.after = [self.point(made.at + 1, after, (*made.facts, Fact(left=new)))]
        else:
            super().follow(made, text)

    def compute(self, made: Point, result: Term) -> None:
        """Adds the points after a function."""
        is_fraction = result.op == "FRC" and self.parts_of(result) is not None
        if not is_fraction and (result.op not in ("+", "-", "MOD", "INT", "FRC") or self.nat(result) is None):
            super().compute(made, result)
            return
        made.result, made.kind = result, "fraction" if is_fraction else "exact"
        new = self.fresh(result)
        made.after = [self.point(made.at + 1, self.computed(made, new), (*made.facts, Fact(left=new)))]

    def test(self, made: Point, condition: Condition) -> None:
        """Adds the points after a test: which one follows depends on whole numbers, if it compares whole numbers."""
        text = self.lines[made.at].text
        left, right = self.nat(condition.left), self.nat(condition.right)
        if left is None or right is None or condition.relation == "=" and text[-2] == "Y":
            super().test(made, condition)
            return
        self.need_next(made.at)
        made.kind = "compare"
        # Whether the first number is less than the second one.
        first, second, is_less = ((left, right, True) if condition.relation == "<" else (right, left, False) if condition.relation == "<="
                                  else ("0", left, False))
        for less in (True, False):
            holds = less == is_less
            is_next = holds == condition.is_true
            fact = Fact(relation=(first, "<", second) if less else (second, "≤", first))
            made.after.append(self.point(made.at + (1 if is_next else 2), replace(made.state, lift=True), (*made.facts, fact)))

    # Calls.

    def callee(self, at: int) -> Call:
        """Returns the subroutine that the XEQ at a place calls."""
        assert self.called
        return self.calls.get(at) or self.called(at)

    def check_call(self, made: Point, callee: Program) -> None:
        """Checks that the requirements of a subroutine are met."""
        super().check_call(made, callee)
        name, state = callee.shown, made.state
        for register in callee.contract.counters:
            if self.parts_of(state.register(register)) is None:
                raise self.fail(made.at, f"{name} requires that {register} is a counter, but {register} contains "
                                         f"{plain(state.register(register).text())}, of which this is not known")
        typed = next((text for text in callee.numbers if self.nat(Term("number", (), text)) is not None), None)
        if typed:
            raise self.fail(made.at, f"the line {typed} of {name} is not followed as a whole number: add a claim about a whole number "
                                     f"before {name}, for example `requires X is a whole number`")
        for register in callee.contract.wholes:
            term = state.register(register)
            if self.nat(term) is None:
                raise self.fail(made.at, f"{name} requires that {register} is a whole number, but {register} contains "
                                         f"{plain(term.text())}, of which this is not known")
        rows = self.rows(made.facts)
        for one in callee.contract.relations:
            if not is_known(self.asked_by(one, state), rows):
                raise self.fail(made.at, f"{name} requires `{one.text}`, which does not follow from what is known here: require more, or "
                                         "claim more in the invariant of the loop")
        for equation, value, condition in callee.equations:
            here = into(value, state)
            if value.op != "old" and not condition and (callee.walk.nat(value) is None) != (self.nat(here) is None):
                raise self.fail(made.at, f"{name} claims `{equation.text}`, and its result is a whole number only there or only here: "
                                         f"remove `{asked(here)} is in range` from one of the two programs")

    def asked_by(self, relation: Relation, state: State) -> tuple[str, str, str]:
        """Returns a requirement of a subroutine that is called in a state, as a comparison of natural numbers."""
        return self.compared(replace(relation, left=into(relation.left, state), right=into(relation.right, state)), state)

    def lines_of(self, callee: Program, state: State, facts: tuple[Fact, ...]) -> Count:
        """Returns the greatest number of lines of a subroutine."""
        found = Count(callee.most.constant)
        for many, one in callee.most.parts:
            part = Count(many)
            for name in one.split(" * "):
                part = part.times(self.bound(self.number_at(name, state), facts))
            found = found.more(part)
        return found

    def number_at(self, name: str, state: State) -> str:
        """Returns a whole number of the claims of a subroutine that is called in a state, as a natural number of the definitions."""
        kind, register = name.split("_")
        value = state.register(register.upper())
        parts = self.parts_of(value) if kind != "whole" else None
        found = self.nat(value if parts is None else parts[0] if kind == "count" else parts[1])
        assert found is not None
        return found

    # What is known of whole numbers.

    def rows(self, facts: tuple[Fact, ...]) -> list[Row]:
        """Returns what is known of whole numbers."""
        most = str(BOUND - 1)
        found = [(f"whole_{name.lower()}", "≤", most) for name in self.contract.wholes]
        found += [one for name in self.contract.counters for one in self.limits(old(name))]
        found += [self.compared(one, self.begin_state) for one in self.contract.relations]
        for fact in facts:
            number = self.nat(fact.left.args[0]) if fact.left and fact.left.args else None
            if number is not None and fact.left and not fact.left.name.startswith("w_"):
                found.append((number, "≤", most))
            elif fact.left and self.parts_of(fact.left):
                found += self.limits(fact.left)
            elif fact.relation:
                found.append(fact.relation)
            elif fact.loop:
                found.append((f"left_{fact.loop.number}", "≡", fact.loop.measure))
        return [one for comparison in found for one in rows_of(comparison)]

    def limits(self, term: Term) -> list[tuple[str, str, str]]:
        """Returns how great the count and the final count of a counter can be."""
        parts = self.parts_of(term)
        assert parts
        count, final = (self.nat(part) for part in parts)
        assert count is not None and final is not None
        return [(count, "≤", str(COUNT_BOUND - 1)), (final, "≤", str(FINAL_BOUND - 1))]

    def bound(self, number: str, facts: tuple[Fact, ...]) -> Count:
        """Returns a number that a natural number of the definitions does not exceed, in terms of those before the program."""
        kept: set[Hashable] = {f"whole_{name.lower()}" for name in self.contract.wholes}
        kept |= {f"{part}_{name.lower()}" for name in self.contract.counters for part in ("count", "final")}
        return bound_of(number, self.rows(facts), kept, BOUND - 1)

    def target(self, at: int, text: str) -> int:
        """Returns the place of the label to which GTO leads. Only the label of a loop can be before the line."""
        backward = next((place for place in self.claimed if self.lines[place].text == f"LBL {text[4:]}" and place < at), None)
        first = next((place for place in range(len(self.lines)) if self.lines[place].text == f"LBL {text[4:]}"), None)
        end = next((place for place in range(at, len(self.lines)) if self.lines[place].text == "END"), None)
        if not self.is_start:
            raise self.fail(at, NO_START)
        onward = any(self.lines[place].text == f"LBL {text[4:]}" for place in range(at, end or len(self.lines)))
        if backward is None or backward != first or onward:
            return super().target(at, text)
        if end is None:
            raise self.fail(at, "this line leads back, so the search for the label passes the end of the program: add the line END there")
        self.last, self.jumps[at] = max(self.last, end), backward
        return backward

    # Loops.

    def inside(self) -> tuple[Loop, ...]:
        """Returns the loops in which the next point is."""
        return tuple(self.loops[place] for place in self.open)

    def point(self, at: int, state: State, facts: tuple[Fact, ...]) -> Point:
        """Returns the point at a line. At the label of a loop, its rounds begin or end."""
        if at not in self.claimed:
            return super().point(at, state, facts)
        self.count += 1
        made = Point(f"p{self.count}", at, state, facts, "enter", [], loops=self.inside())
        self.check_round(at, state)
        self.last = max(self.last, at)
        if at in self.open:
            made.kind, made.ways, made.again = "again", {self.loops[at].number: Count(0)}, self.loops[at]
            return made
        if at not in self.loops:
            self.begin(at, bool(state.lift), [place for place in self.open if place in self.flow.reached(at)])
        elif self.loops[at].is_on and not state.lift:
            raise self.fail(at, "stack lift is on at one place from which this loop begins, and it is not known to be on at another one: "
                                "put a line before it that turns stack lift on, for example RCL")
        loop = self.loops[at]
        strange = next((one for one in loop.outer if one not in made.loops), None)
        if strange:
            raise self.fail(at, f"this loop is a part of the loop {self.lines[strange.place].text}, and a line outside of that loop leads "
                                "to it: let that line lead to the label of the outer loop")
        self.enter(made, loop)
        return made

    def enter(self, made: Point, loop: Loop) -> None:
        """Lets a loop begin at a point."""
        assert loop.start
        measure = self.measure(loop, made.state)
        rounds = loop.round().times(self.bound(measure, made.facts))
        made.entered = loop, measure
        others = {way: lines for way, lines in loop.start.ways.items() if way != loop.number} or {0: Count(0)}
        made.ways = {way: rounds.more(lines.greatest(loop.round())) for way, lines in others.items()}

    def check_round(self, at: int, state: State) -> None:
        """Checks that registers contain at the label of a loop what its claims say."""
        contract, label = self.claimed[at], self.lines[at].text
        for name, line in contract.wholes.items():
            if self.nat(state.register(name)) is None:
                raise Wrong(line, 1, f"`{name} is a whole number`: when {label} is reached, {name} contains {state.register(name).text()}, "
                            "which is not known to be a whole number")
        for name, line in contract.counters.items():
            if self.parts_of(state.register(name)) is None:
                raise Wrong(line, 1, f"`{name} is a counter`: when {label} is reached, {name} contains {state.register(name).text()}, "
                            "which is not known to be a counter")
        for name, (value, text, line) in contract.kept.items():
            if state.register(name) != value:
                raise Wrong(line, 1, f"`{text}`: when {label} is reached, {name} contains {state.register(name).text()}")

    def measure(self, loop: Loop, state: State) -> str:
        """Returns the number that the rounds of a loop make smaller, at a state."""
        contract = loop.contract
        assert contract.decreases
        return self.side(contract.decreases, state, Relation(contract.decreases, "", contract.decreases, contract.measure,
                                                             contract.measure_line))

    def begin(self, at: int, is_on: bool, outer: list[int]) -> None:
        """Follows a round of a loop, with stack lift on at its label if that is true after each round. `outer` has the places of the loops
        in which it is."""
        contract, number = self.claimed[at], self.count
        if contract.decreases is None:
            raise NotProved(self.lines[at].number, f"`{self.lines[at].text}`: its claims lack the number that each round of the loop makes "
                            "smaller: add `decreases` and this number, for example `decreases X`")
        state, facts = self.at_label(at, is_on, outer)
        loop = Loop(number, at, contract, state, tuple(facts), is_on, tuple(self.loops[place] for place in outer))
        self.loops[at] = loop
        loop.relations = [(*self.compared(one, state), one) for one in contract.relations]
        loop.measure = self.measure(loop, state)
        relations = [Fact(relation=(left, sign, right)) for left, sign, right, _ in loop.relations]
        loop.known = (*loop.context, *facts, *relations, Fact(loop=loop))
        before, self.open = self.open, [*outer, at]
        loop.start = super().point(at, state, loop.known)
        self.open = before
        if is_on and not all(one.state.lift for one in self.ends_of(loop)):
            self.loops = {place: one for place, one in self.loops.items() if loop not in one.outer}
            self.begin(at, False, outer)

    def ends_of(self, loop: Loop) -> list[Point]:
        """Returns the last points of the rounds of a loop."""
        starts = [one.start for one in self.loops.values() if one.start and (one is loop or loop in one.outer)]
        return [one for start in starts for one in points_from(start) if one.again is loop]

    def at_label(self, at: int, is_on: bool, outer: list[int]) -> tuple[State, list[Fact]]:
        """Returns the state at the label of a loop, and what is known of its registers. A data register that is not written on the way
        from the label of the next outer loop, nor in a round, contains what it contains at that label."""
        contract, number = self.claimed[at], self.count
        changed = self.flow.writes(self.flow.between(outer[-1], at)) if outer else []
        facts: list[Fact] = []

        def content(name: str) -> Term:
            """Returns what is in a register."""
            if name in contract.kept:
                return contract.kept[name][0]
            if outer and name not in PLACES and int(name[1:]) not in changed:
                return self.loops[outer[-1]].state.register(name)
            one = Term("whole", (), f"k_{name.lower()}_{number}", f"{name} at {self.lines[at].text}")
            value = (one,) if name in contract.wholes else ()
            if name in contract.counters:
                value = (self.unknown_counter(name, at),)
            found = Term("left", value, f"{name.lower()}_{number}", f"what {name} contains at {self.lines[at].text}")
            facts.append(Fact(left=found))
            return found

        stack = {place: content(name) for name, place in PLACES.items()}
        written = tuple((one, content(f"R{one:02}")) for one in self.flow.writes({0, *self.flow.reached(0)}))
        switch = f"lift_{number}"
        return State(**stack, written=written, lift=True if is_on else None, switch=switch), [
            *facts, *([] if is_on else [Fact(switch=switch)])]


def points_from(point: Point) -> list[Point]:
    """Returns a point and those after it."""
    found = [point]
    for one in found:
        found += one.after
    return found


def at_state(term: Term, state: State) -> Term:
    """Returns a term of a claim, of which the registers at the place of the claim are those of a state."""
    return state.register(term.name) if term.op == "now" else replace(term, args=tuple(at_state(one, state) for one in term.args))
