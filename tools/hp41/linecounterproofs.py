"""The part of a proof about a program that is about counters: ISG, DSE, and number lines with a counter."""
from __future__ import annotations

from typing import TYPE_CHECKING

from .lineclaims import Term
from .lineregisterproofs import RegisterProof
from .lineregisters import FUNCTIONS
from .lineterms import characters_of

if TYPE_CHECKING:
    from .lineproofs import ProgramProof
    from .linepoints import Point

# For ISG and DSE the direction, the number after counting, and whether the loop continues, if it does and if it does not.
WAYS = {"ISG": ("Up", "number_is", "continues", "passes"), "DSE": ("Down", "down_is", "continues_down", "passes_down")}


class CounterProof:
    """Writes the statements of points at which counters are counted or typed."""

    def __init__(self, proof: ProgramProof) -> None:
        """Takes the proof of the program."""
        self.proof, self.walk = proof, proof.program.walk

    def parts(self, term: Term) -> tuple[str, str] | None:
        """Returns the count and the final count of a value, as natural numbers of the definitions; None if it is no counter."""
        found = self.walk.parts_of(term)
        if not found:
            return None
        count, final = map(self.walk.nat, found)
        assert count is not None and final is not None
        return count, final

    @staticmethod
    def own(left: Term) -> list[str]:
        """Returns the names of the unknown count and final count of a register at the label of a loop."""
        return [one.name for one in left.args[0].args] if left.args[0].name == "unknown" else []

    def given(self, left: Term) -> str:
        """Returns what is known of a register with a counter, as arguments of a statement."""
        parts, name = self.parts(left), left.name
        assert parts
        own = "".join(f"({one} : ℕ) → " for one in self.own(left))
        return (f"{own}({name} : List ℕ) → (is_{name} : IsRegisterOf {self.proof.program.amount(left)} {name}) → "
                f"(small_{name} : {parts[0]} < 10 ^ 7) → (few_{name} : {parts[1]} < 1000) → ")

    def names(self, left: Term) -> str:
        """Returns the names of what is known of a register with a counter."""
        return " ".join([*self.own(left), left.name, f"is_{left.name}", f"small_{left.name}", f"few_{left.name}"])

    def typed(self, point: Point) -> None:
        """Writes the statement of a number line with a counter."""
        proof, after, names = self.proof, point.after[0], self.proof.names(point.facts)
        text = proof.program.lines[point.at].text
        new = after.facts[-1].left
        parts = self.parts(new) if new else None
        assert parts
        digits, places = int(text.replace(".", "")), len(text.partition(".")[2])
        nearest = (f"typed_decimals itself {digits} {places} ({parts[0]} * one + {parts[1]} * 10 ^ 105) found.ten (omega arith) "
                   "(omega arith) (omega arith) found.units_is")
        is_number = (f"(record {{ exponent = record {{ biased = 99; in_range = omega arith; }}; biased = refl; typed = record {{ answer = "
                     f"Ok found.ten; nearest = {nearest}; value = refl; }}; }})")
        step = (f"enters_number {proof.common(point)} {characters_of(text)} found.ten found.register {is_number} found.of_ten "
                f"l{point.at}.stands {proof.lift(point.state)}")
        proof.put(point, "\n".join([
            f"{point.name} : {proof.given(point.facts)}{proof.leaves(point)}", f"{point.name} {names} memory has =",
            f"    let small : {parts[0]} < 10 ^ 7 = omega arith in", f"    let few : {parts[1]} < 1000 = omega arith in",
            f"    let found = counter_in registers {parts[0]} {parts[1]} small few in",
            f"    {proof.go_on(point, after, step, f'{names} found.register found.is small few')}"]))

    def fraction(self, point: Point) -> None:
        """Writes the statement of FRC of a counter."""
        proof, after, names = self.proof, point.after[0], self.proof.names(point.facts)
        before, new = self.parts(point.state.x), after.facts[-1].left
        parts = self.parts(new) if new else None
        assert before and parts
        rest = f"(pos ({parts[0]} * one + {parts[1]} * 10 ^ 105))"
        step = (f"works_on_one {proof.common(point)} {proof.lift(point.state)} functions.FractionPart (OfOne ones.Fraction X) found.register "
                f"refl l{point.at}.stands (made_fraction {proof.stack(point.state)} memory {proof.program.amount(point.state.x)} "
                f"{proof.holds(point.state.x)} found.ten found.register found.of_ten {rest} (fraction_is_counter {before[0]} {before[1]} "
                "few) (subst (λ (z : ℤ). Nearest z 1 (Ok found.ten)) found.units_is (itself found.ten)))")
        proof.put(point, "\n".join([
            f"{point.name} : {proof.given(point.facts)}{proof.leaves(point)}", f"{point.name} {names} memory has =",
            f"    let small : {parts[0]} < 10 ^ 7 = omega arith in",
            f"    let few : {parts[1]} < 1000 = omega {proof.whole_part.known(point.facts)} in",
            f"    let found = counter_in registers {parts[0]} {parts[1]} small few in",
            f"    {proof.go_on(point, after, step, f'{names} found.register found.is small few')}"]))

    def count(self, point: Point) -> None:
        """Writes the statement of ISG or DSE: both ways."""
        proof, names, known = self.proof, self.proof.names(point.facts), self.proof.whole_part.known(point.facts)
        line = RegisterProof(proof, point)
        way, number_is, goes_on, ends = WAYS[line.line.function]
        value = point.state.register(f"R{line.number:02}")
        before, new = self.parts(value), point.after[0].facts[-2].left
        after = self.parts(new) if new else None
        assert before and after
        more = f"{before[0]} {before[1]} few{' some' if way == 'Down' else ''}"
        given = (f"itself {line.place()} {line.lift} parameters.{FUNCTIONS[line.line.function]} {way} refl refl refl {line.stands} "
                 f"{proof.program.amount(value)} {proof.holds(value)} found.ten found.register found.of_ten "
                 f"(found.units_is ∙ sym ({number_is} {more}))")
        skipped = f"_ l{point.at + 1}.next l{point.at + 1}.stands"
        steps = {True: f"goes_round {given} ({goes_on} {more} which)", False: f"goes_past {given} ({ends} {more} which) {skipped}"}
        rows = [f"{point.name} : {proof.given(point.facts)}{proof.leaves(point)}", f"{point.name} {names} memory has =",
                *([f"    let some : 0 < {before[0]} = omega {known} in"] if way == "Down" else []),
                f"    let small : {after[0]} < 10 ^ 7 = omega {known} in", f"    let few : {after[1]} < 1000 = omega {known} in",
                f"    let found = counter_in registers {after[0]} {after[1]} small few in", f"    elim (cases_lt {after[1]} {after[0]}) ["]
        for branch, is_less in (("inl", True), ("inr", False)):
            is_next = is_less == (way == "Down")
            one, facts = point.after[0 if is_next else 1], f"{names} found.register found.is small few which"
            rows.append(f"      | {branch} which ↦ {proof.go_on(point, one, steps[is_next], facts)}")
        proof.put(point, "\n".join([*rows, "    ]"]))
