"""Follows ISG and DSE: the counter in a data register is a whole number, or it has the form of the calculator's counters, iiiii.fff."""
from __future__ import annotations

from dataclasses import replace
from decimal import Decimal

from .lineclaims import ZERO, LoopContract, Term
from .lineregisters import COUNTS, MOST_REGISTERS, RegisterLine
from .linepoints import Fact, Point
from .linereasons import has_increment
from .linesteps import Walk, value_of
from .lineterms import term_of

# The first count that is too great, and the first final count that is.
COUNT_BOUND, FINAL_BOUND = 10 ** 7, 1000
# Ten digits and a point.
MOST_CHARACTERS = 11
ONE = Term("number", (), "1")


def literal(term: Term) -> tuple[Term, Term] | None:
    """Returns the count and the final count of the counter in a number line; None if it is another number."""
    value = value_of(term.name) if term.name.replace(".", "", 1).isdigit() else None
    if value is None or len(term.name) > MOST_CHARACTERS or value >= COUNT_BOUND or value == int(value):
        return None
    if value * FINAL_BOUND != int(value * FINAL_BOUND):
        return None
    return Term("number", (), str(int(value))), Term("number", (), str(int((value - int(value)) * Decimal(FINAL_BOUND))))


class CounterWalk(Walk):
    """All paths through a program with counters."""

    # The claims about loops, by the places of their labels.
    claimed: dict[int, LoopContract]

    def parts_of(self, term: Term) -> tuple[Term, Term] | None:
        """Returns the count and the final count of a value; None if it is not known to be a counter."""
        if term.op == "left":
            return self.parts_of(term.args[0]) if term.args else None
        if term.op == "counter":
            return term.args[0], term.args[1]
        if term.op == "FRC":
            parts = self.parts_of(term.args[0])
            return (ZERO, parts[1]) if parts else None
        if term.op == "old" and term.name in self.contract.counters:
            name = term.name
            return (Term("whole", (), f"count_{name.lower()}", f"COUNT(old {name})"),
                    Term("whole", (), f"final_{name.lower()}", f"FINAL(old {name})"))
        return literal(term) if term.op == "number" else None

    def nat_of_part(self, term: Term, bound: int) -> str | None:
        """Returns a part of a counter, an integer part or a remainder as a natural number of the definitions; None if it is none."""
        if term.op == "MOD":
            left, right = (self.nat(one, bound) for one in term.args)
            return f"({left} % {right})" if left and right and right.isdigit() and int(right) else None
        parts = self.parts_of(term.args[0])
        if term.op == "INT" and not parts:
            return self.nat(term.args[0], bound)
        if term.op == "FRC":
            return None if parts or self.nat(term.args[0], bound) is None else "0"
        return self.nat(parts[1 if term.op == "FINAL" else 0], bound) if parts else None

    def nat(self, term: Term, bound: int = 0) -> str | None:
        """Returns a value as a natural number of the definitions; None if it is not known to be a whole number."""
        raise NotImplementedError

    def register_of(self, made: Point, line: RegisterLine) -> int:
        """Returns the data register that a line uses. With IND, its number is in another register, and must be known."""
        if not line.is_indirect:
            return line.number
        pointer = f"R{line.number:02}"
        value = made.state.register(pointer)
        parts = self.parts_of(value)
        found = self.known(self.nat(parts[0] if parts else value), made.facts)
        if found is None:
            raise self.fail(made.at, f"{pointer} contains {value.text()}, and the number of the register must be known: put it into "
                                     f"{pointer} with a number line, or add to `requires` for example `{pointer} is a whole number, "
                                     f"{pointer} = 5`")
        if found >= MOST_REGISTERS:
            raise self.fail(made.at, f"{pointer} contains {found}, and only R00 to R{MOST_REGISTERS - 1} are supported")
        if line.function in COUNTS or self.claimed and line.function != "RCL":
            raise self.fail(made.at, "IND is not supported with ISG and DSE, and in a program with a loop only with RCL")
        return found

    def known(self, number: str | None, facts: tuple[Fact, ...]) -> int | None:
        """Returns the value of a natural number of the definitions; None if it is not known."""
        if number is None or number.isdigit():
            return int(number) if number else None
        given = [*(fact.relation for fact in facts if fact.relation), *self.given()]
        found = {other for left, sign, right in given if sign == "≡" for one, other in ((left, right), (right, left))
                 if one == number and other.isdigit()}
        return int(min(found)) if found else None

    def given(self) -> list[tuple[str, str, str]]:
        """Returns the comparisons that the program requires, as comparisons of natural numbers."""
        return []

    def need_next(self, at: int) -> None:
        """Checks that there is a line that a test, ISG or DSE could skip."""
        if at + 1 >= len(self.lines):
            raise self.fail(at, "this line is the last one, so it has no line to skip: add lines after it, for example RTN and RTN")
        if term_of(self.lines[at + 1].text, 0) is None:
            self.check(at + 1)
        self.last = max(self.last, at + 1)

    def unknown_counter(self, name: str, at: int) -> Term:
        """Returns the counter that a register contains at the label of a loop. Its count and its final count have names of their own."""
        parts = (Term("whole", (), f"{part}_{name.lower()}_{self.count}", f"{part.upper()}({name}) at {self.lines[at].text}")
                 for part in ("count", "final"))
        return Term("counter", tuple(parts), "unknown")

    def typed(self, made: Point, value: Term) -> bool:
        """Adds the point after a number line with a counter, if it is one."""
        parts = literal(value) if value.op == "number" else None
        if not parts or made.state.lift is None:
            return False
        new = Term("left", (value,), f"w_{self.count}")
        made.kind = "typed"
        made.after = [self.point(made.at + 1, made.state.coming(new, made.state.lift), (*made.facts, Fact(left=new)))]
        return True

    def count_on(self, made: Point, function: str, number: int) -> None:
        """Adds the points after ISG or DSE: at the next line while the loop continues, otherwise after it."""
        register = f"R{number:02}"
        value = made.state.register(register)
        parts, whole = self.parts_of(value), self.nat(value)
        if not parts and whole is None:
            if has_increment(value.text()):
                raise self.fail(made.at, f"{register} contains {value.text()}, a counter with an increment, which is not supported: count by 1, with "
                                         "at most three decimals, as in 1.010, and multiply the count")
            raise self.fail(made.at, f"{register} contains {value.text()}, which is not known to be a counter: add `{register} is a whole "
                                     f"number` or `{register} is a counter` to `requires`, and to `invariant` if the line is in a loop")
        self.need_next(made.at)
        count, final = parts or (value, Term("zero"))
        counted = Term("+" if function == "ISG" else "-", (count, ONE))
        new = Term("left", (Term("counter", (counted, final)) if parts else counted,), f"w_{self.count}")
        after = replace(made.state, lift=True, written=(*made.state.written, (number, new)))
        facts = (*made.facts, Fact(left=new))
        if not parts and function == "ISG":
            # The counter is above zero, so that the loop ends.
            made.kind = "exact"
            made.after = [self.point(made.at + 2, after, facts)]
            return
        made.kind = "count_on" if parts else "count"
        more, last = self.nat(counted), self.nat(final)
        assert more is not None and last is not None
        less, most = Fact(relation=(last, "<", more)), Fact(relation=(more, "≤", last))
        goes_on, ends = (most, less) if function == "ISG" else (less, most)
        made.after = [self.point(made.at + 1, after, (*facts, goes_on)), self.point(made.at + 2, after, (*facts, ends))]
