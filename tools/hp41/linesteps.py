"""Follows the lines of a program with unknown values: which values the registers contain after each line, on each path through tests."""
from __future__ import annotations

import re
from dataclasses import replace
from decimal import Decimal
from typing import TYPE_CHECKING, Callable

from .claims import Wrong
from .codes import NotProved
from .lineclaims import PI, ZERO, Condition, LineContract, Term, condition_of, plain
from .linecounts import Count
from .linemoves import moved
from .linepoints import Call, Fact, Loop, NeedsWholes, PLACES, Point, START, State
from .lineregisters import COUNTS, INTO, RegisterLine, register_line, registers_in
from .linereasons import reason_of
from .lineterms import CALL, CALL_NAMED, GO_TO, GO_TO_NAMED, NUMBER, TEST, ProgramLine, term_of

if TYPE_CHECKING:
    from .linetheorems import Program

OF_TWO, OF_ONE = ("+", "-", "*", "/", "MOD"), ("X^2", "CHS", "ABS", "SQRT", "1/X", "INT", "FRC", "SIGN")
EXACT = ("CHS", "ABS", "SIGN")
WHOLE_PARTS = ("INT", "FRC", "MOD", "COUNT", "FINAL")
ENDS = ("RTN", "END")
# The kinds of points at which a program has ended.
LAST = ("end", "left")
MOST_POINTS = 400

# What to write in place of a line that is not supported.
BRANCH = re.compile("(GTO|XEQ) ")
NO_PART = "it is not known that X contains a whole number or a counter: add to `requires` for example `X is a whole number`"
WHOLE_ONLY = {"INT": NO_PART, "FRC": NO_PART,
              "MOD": "it is not known that Y contains a whole number and X the number of a number line, from 1 on: add to `requires` for "
                     "example `Y is a whole number`, and put a number line before MOD"}
NO_LOOP = ("this line leads back, and nothing says that the loop ends: put comments `invariant` and `decreases` before the label, see "
           "Loops of programs in docs/PROVE-YOUR-MODULE.md")
NO_BRANCH = ("only GTO 00 to GTO 14, XEQ 00 to XEQ 14, and GTO and XEQ with a name are supported: prove the lines up to it, or write the proof by "
             "hand, see A theorem of your own in docs/PROVE-YOUR-MODULE.md")
NO_START = ("the label with the claims is not the first line of its program, so it is not known where this line leads: put END before "
            "that label")


def test_of(text: str, state: State) -> Condition:
    """Returns the condition of a test: what is compared, and how."""
    right = state.y if text[-2] == "Y" else ZERO
    return condition_of(state.x, {"#": "<>"}.get(text[1:-2], text[1:-2]), right)


class Walk:
    """All paths through a program, from a label on."""

    # Whether whole numbers are followed.
    has_wholes = False

    def __init__(self, lines: list[ProgramLine], contract: LineContract, is_start: bool = True,
                 called: Callable[[int], Call] | None = None) -> None:
        """Follows all paths. `is_start` says whether the label is the first line of a program, and `called` finds the subroutine that the
        XEQ at a place calls."""
        self.lines, self.contract, self.count, self.is_start, self.called = lines, contract, 0, is_start, called
        # The places to which GTO leads, and the subroutines that XEQ calls, by the places of the lines.
        self.jumps: dict[int, int] = {}
        self.calls: dict[int, Call] = {}
        # The loops, by the places of their labels.
        self.loops: dict[int, Loop] = {}
        self.required: list[Term] = []
        self.last = 0
        for term, line in contract.in_range:
            for part in term.parts():
                if part.op in WHOLE_PARTS:
                    raise Wrong(line, 1, f"{part.op} is not supported before `is in range`: its result is a whole number, which is always "
                                "in range")
                if part.args and part.op not in EXACT and part not in self.required:
                    self.required.append(self.resolved(part))
            if term.op in EXACT:
                raise Wrong(line, 1, f"{term.op} is always in range: remove this requirement")
        self.start = self.point(0, replace(START, lift=True if contract.is_lift_on else None), ())

    def resolved(self, term: Term) -> Term:
        """Returns a term with the numbers of a claim as the program spells them."""
        if term.op == "number":
            spelled = [line.text for line in self.lines if NUMBER.fullmatch(line.text) and value_of(line.text) == value_of(term.name)]
            return Term("number", (), (spelled or [term.name])[0])
        return replace(term, args=tuple(map(self.resolved, term.args)))

    def points(self) -> list[Point]:
        """Returns all points that are reached."""
        found = [self.start, *(loop.start for loop in self.loops.values() if loop.start)]
        for point in found:
            found += point.after
        return found

    def found_registers(self, is_written: bool = False) -> list[int]:
        """Returns the data registers that lines use, or those that they write."""
        return sorted({point.register for point in self.points() if point.register is not None
                       and not (is_written and self.lines[point.at].text.startswith("RCL"))})

    def tests(self) -> set[Condition]:
        """Returns the conditions of all tests that are reached."""
        return {point.condition for point in self.points() if point.condition}

    def leaves_lift(self) -> bool:
        """Returns whether stack lift is on after the program, on all paths."""
        return all(point.state.lift for point in self.points() if point.kind in LAST)

    def fail(self, at: int, why: str) -> NotProved:
        """Returns the error that a line cannot be proved."""
        line = self.lines[at] if at < len(self.lines) else self.lines[-1]
        return NotProved(line.number, f"`{line.text}`: {why}")

    def point(self, at: int, state: State, facts: tuple[Fact, ...]) -> Point:
        """Returns the point at a line."""
        self.count += 1
        if self.count > MOST_POINTS:
            raise self.fail(at, f"the tests before this line make too many paths: {MOST_POINTS} lines on all paths together are possible. "
                                "Turn a part of the program into a subroutine with its own claims")
        if at >= len(self.lines):
            raise self.fail(at, "no line follows, and the program does not return: add RTN or END after this line")
        self.last = max(self.last, at)
        self.check(at)
        made = Point(f"p{self.count}", at, state, facts, "line", [], loops=self.inside())
        self.follow(made, self.lines[at].text)
        made.measured()
        return made

    def inside(self) -> tuple[Loop, ...]:
        """Returns the loops in which the next point is."""
        return ()

    def nat(self, term: Term) -> str | None:
        """Returns a value as a natural number of the definitions; None if whole numbers are not followed."""
        return None

    def parts_of(self, term: Term) -> tuple[Term, Term] | None:
        """Returns the count and the final count of a value; None if counters are not followed."""
        return None

    def is_opaque(self, term: Term) -> bool:
        """Returns whether a value is neither a whole number nor a counter that is followed."""
        return self.nat(term) is None and self.parts_of(term) is None

    def check(self, at: int) -> None:
        """Checks that a line is supported."""
        text = self.lines[at].text
        if BRANCH.match(text) and not any(form.fullmatch(text) for form in (GO_TO, CALL, CALL_NAMED, GO_TO_NAMED)):
            raise self.fail(at, NO_BRANCH)
        if term_of(text, at) is None:
            raise self.fail(at, reason_of(text))

    def follow(self, made: Point, text: str) -> None:
        """Adds the points after a point."""
        state, at = made.state, made.at
        register = register_line(text)
        if text in ENDS:
            made.kind = "end"
        elif register:
            self.use_register(made, register)
        elif NUMBER.fullmatch(text) or text in ("LASTX", "PI"):
            self.come(made, {"LASTX": state.last, "PI": PI}.get(text) or Term("number", (), text))
        elif GO_TO.fullmatch(text):
            made.after = [self.point(self.target(at, text), state, made.facts)]
        elif GO_TO_NAMED.fullmatch(text):
            self.jump(made)
        elif text.startswith("XEQ"):
            self.call(made)
        elif TEST.fullmatch(text):
            self.test(made, test_of(text, state))
        elif text in OF_TWO:
            self.compute(made, Term(text, (state.y, state.x)))
        elif text in OF_ONE:
            self.compute(made, Term(text, (state.x,)))
        else:
            made.after = [self.point(at + 1, moved(text, state), made.facts)]

    def use_register(self, made: Point, line: RegisterLine) -> None:
        """Adds the points after a line with a data register."""
        state, number = made.state, self.register_of(made, line)
        made.register = number
        value = state.register(f"R{number:02}")
        if line.function == "RCL":
            self.come(made, value)
        elif line.function in INTO:
            self.compute(made, Term(INTO[line.function], (value, state.x)))
        elif line.function in COUNTS:
            self.count_on(made, line.function, number)
        else:
            x = value if line.function == "X<>" else state.x
            after = replace(state, x=x, lift=True, written=(*state.written, (number, state.x)))
            made.after = [self.point(made.at + 1, after, made.facts)]

    def register_of(self, made: Point, line: RegisterLine) -> int:
        """Returns the data register that a line uses."""
        return line.number

    def count_on(self, made: Point, function: str, number: int) -> None:
        """Adds the points after a line that counts a loop."""
        raise NotImplementedError

    def target(self, at: int, text: str) -> int:
        """Returns the place of the label to which GTO leads: the first one after the line, before END."""
        if not self.is_start:
            raise self.fail(at, NO_START)
        for place in range(at + 1, len(self.lines)):
            if self.lines[place].text == f"LBL {text[4:]}":
                self.jumps[at] = place
                return place
            if self.lines[place].text in ("END", ".END."):
                break
        is_loop = any(line.text == f"LBL {text[4:]}" for line in self.lines[:at])
        raise self.fail(at, NO_LOOP if is_loop else f"found no LBL {text[4:]} in the program, so the line fails with NONEXISTENT")

    def come(self, made: Point, value: Term) -> None:
        """Adds the points after a line that brings a value into X."""
        if made.state.lift is None:
            made.kind, made.own = "lift", Count(0)
            made.after = [self.point(made.at, replace(made.state, lift=on), made.facts) for on in (True, False)]
        else:
            made.after = [self.point(made.at + 1, made.state.coming(value, made.state.lift), made.facts)]

    def test(self, made: Point, condition: Condition) -> None:
        """Adds the points after a test: at the next line if it is true, otherwise after it."""
        made.kind, made.condition = "test", replace(condition.plain(), is_true=True)
        if condition.relation != "=":
            for side in (condition.left, condition.right):
                self.need_number(made.at, side)
        after = replace(made.state, lift=True)
        if made.at + 1 >= len(self.lines):
            raise self.fail(made.at, "this test is the last line, so it has no line to skip: add lines after it, for example RTN and RTN")
        if term_of(self.lines[made.at + 1].text, 0) is None:
            self.check(made.at + 1)
        self.last = max(self.last, made.at + 1)
        for place, is_true in ((made.at + 1, condition.is_true), (made.at + 2, not condition.is_true)):
            fact = Fact(None, replace(condition.plain(), is_true=is_true))
            made.after.append(self.point(place, after, (*made.facts, fact)))

    def compute(self, made: Point, result: Term) -> None:
        """Adds the points after a function."""
        for one in result.args:
            self.need_number(made.at, one)
        made.result, facts = result, made.facts
        if result.op not in EXACT and not self.is_in_range(result, facts):
            made.kind = "outcome"
            facts = (*facts, Fact(result.plain()))
            if result.op in WHOLE_ONLY:
                raise self.fail(made.at, WHOLE_ONLY[result.op])
            if result.op == "SQRT":
                raise self.fail(made.at, f"the root may not exist: add `{asked(result)} is in range` to `requires`")
            if "OUT OF RANGE" not in self.contract.errors:
                raise self.fail(made.at, f"the result may be out of range: add `{asked(result)} is in range` to `requires`, or "
                                         "`or OUT OF RANGE` to `ensures`")
            if result.op in ("/", "1/X") and "DATA ERROR" not in self.contract.errors:
                raise self.fail(made.at, f"the divisor may be zero: add `{asked(result)} is in range` to `requires`, or `or DATA ERROR` "
                                         "to `ensures`")
        made.after = [self.point(made.at + 1, self.computed(made, result), facts)]

    def computed(self, made: Point, value: Term) -> State:
        """Returns the state after a function whose result is a value."""
        state, result = made.state, made.result
        assert result
        on = replace(state, lift=True)
        if made.register is not None:
            return replace(on, written=(*state.written, (made.register, value)))
        if result.op == "CHS":
            return replace(on, x=value)
        return state.dropped(value) if len(result.args) > 1 else replace(on, x=value, last=state.x)

    def is_in_range(self, result: Term, facts: tuple[Fact, ...]) -> bool:
        """Returns whether it is known that a result is in range."""
        return result.plain() in self.required or Fact(result.plain()) in facts

    def call(self, made: Point) -> None:
        """Adds the point after a subroutine: its registers contain what its claims say."""
        assert self.called
        if CALL.fullmatch(self.lines[made.at].text) and not self.is_start:
            raise self.fail(made.at, NO_START)
        found = self.follow_call(made, "call")
        if found.place is not None:
            self.last = max(self.last, found.place + len(found.program.lines) - 1)
        state, facts = left_by(found.program, made.state, self.count)
        made.after = [self.point(made.at + 1, state, (*made.facts, *facts))]

    def jump(self, made: Point) -> None:
        """Adds the point after the program to which GTO with a name leads: this program has ended, and its registers contain what the
        claims of the other one say."""
        found = self.follow_call(made, "jump")
        state, facts = left_by(found.program, made.state, self.count)
        self.count += 1
        known = (*made.facts, *(fact for fact in facts if fact.left))
        made.after = [Point(f"p{self.count}", made.at, state, known, "left", [], ways={0: Count(0)}, loops=self.inside())]

    def follow_call(self, made: Point, kind: str) -> Call:
        """Returns the program that a line calls, or to which it leads, if its requirements are met."""
        assert self.called
        found = self.calls.get(made.at) or self.called(made.at)
        self.calls[made.at], made.kind = found, kind
        self.check_call(made, found.program)
        made.own = self.lines_of(found.program, made.state, made.facts).more(1)
        return found

    def lines_of(self, callee: Program, state: State, facts: tuple[Fact, ...]) -> Count:
        """Returns the greatest number of lines of a subroutine."""
        return callee.most

    def check_call(self, made: Point, callee: Program) -> None:
        """Checks that the requirements of a subroutine are met."""
        contract, name = callee.contract, callee.shown
        if callee.is_whole and not self.has_wholes:
            raise NeedsWholes
        if contract.errors:
            raise self.fail(made.at, f"{name} may stop with {contract.errors[0]}: require there what excludes the error, and remove "
                                     f"`or {contract.errors[0]}`, because only a subroutine that always returns can be called")
        if contract.is_lift_on and not made.state.lift:
            raise self.fail(made.at, f"{name} requires that stack lift is on, which is not known here: remove this requirement, or put a "
                                     "line before this one that turns stack lift on, for example RCL")
        for register in contract.numbers:
            term = made.state.register(register)
            if not self.is_number(term):
                raise self.fail(made.at, f"{name} requires that {register} is a number, but {register} contains {plain(term.text())}, of "
                                         "which this is not known")
        for term in callee.walk.required:
            here = into(term, made.state)
            if not self.is_in_range(here, made.facts):
                raise self.fail(made.at, f"{name} requires that `{asked(term)}` is in range: require here that `{asked(here)}` is in range")

    def is_number(self, term: Term) -> bool:
        """Returns whether a value is known to be a number."""
        if term.op == "left":
            return bool(term.args)
        return term.op != "old" or term.name in self.contract.numbers

    def need_number(self, at: int, term: Term) -> None:
        """Checks that a value is known to be a number."""
        if term.op == "left" and not term.args:
            raise self.fail(at, f"{term.text()} may be a text, and then this line stops with ALPHA DATA: add to the claims there which "
                                "number it is")
        if term.op == "old" and term.name not in self.contract.numbers:
            raise self.fail(at, f"{term.text()} may be a text, and then this line stops with ALPHA DATA: add `{term.name} is a number` "
                                "to `requires`")


def into(term: Term, state: State) -> Term:
    """Returns a term of a subroutine's claims, of which the old registers are those of a state."""
    return state.register(term.name) if term.op == "old" else replace(term, args=tuple(into(one, state) for one in term.args))


def left_by(callee: Program, state: State, count: int) -> tuple[State, list[Fact]]:
    """Returns the state after a subroutine that was called in a state, and what is known of it. The names of what it leaves have a
    number."""
    facts: list[Fact] = []

    def left(register: str) -> Term:
        """Returns what is in a register."""
        value = next((value for one, value, condition in callee.equations if one.register == register and not condition), None)
        if value and value.op == "old":
            return state.register(value.name)
        # A counter that the subroutine leaves is not followed.
        value = None if value and callee.walk.parts_of(value) else value
        found = Term("left", (into(value, state).plain(),) if value else (), f"{register.lower()}_{count}",
                     f"what {callee.shown} leaves in {register}")
        facts.append(Fact(left=found))
        return found

    stack = {place: left(register) for register, place in PLACES.items()}
    written = tuple((number, left(f"R{number:02}")) for number in callee.written())
    is_on, switch = True if callee.walk.leaves_lift() else None, f"lift_{count}"
    return (State(**stack, written=(*state.written, *written), lift=is_on, switch=switch),
            [*facts, *([] if is_on else [Fact(switch=switch)])])


def stack_part(state: State, count: int) -> State:
    """Returns a state of which only some of the data registers were written."""
    return replace(state, written=state.written[:count])


def asked(term: Term) -> str:
    """Returns a term as `requires` has it."""
    text = term.text().replace("old ", "")
    return text[1:-1] if text.startswith("(") else text


def value_of(text: str) -> Decimal | None:
    """Returns the value of a number line; None if it is not the usual form of a number."""
    text = f"1{text}" if text.startswith("E") else text
    try:
        return Decimal(text)
    except ArithmeticError:
        return None


def written_in(lines: list[ProgramLine]) -> list[int]:
    """Returns the data registers that lines write."""
    return registers_in([line.text for line in lines], True)
