"""The part of a proof about a program that is about whole numbers and loops: exact sums and differences, tests that compare whole numbers,
and rounds, which end because a number falls."""
from __future__ import annotations

from typing import TYPE_CHECKING

from .lineclaims import Term
from .linepoints import Fact, Loop, Point, State
from .lineregisterproofs import RegisterProof
from .lineregisters import is_count, register_line
from .lineterms import NUMBER, PLAIN, characters_of
from .linewholes import WholeWalk

if TYPE_CHECKING:
    from .lineproofs import ProgramProof

# For each test its condition, the lemma that its registers contain numbers, the one of what it compares, and those of its two outcomes if
# the first number is less than the second one and if it is not.
COMPARED = {"X<Y?": ("lt_true", "lt_false"), "X>Y?": ("lt_true", "lt_false"), "X<=Y?": ("le_false", "le_true"),
            "X>0?": ("lt_true", "lt_false"), "X<0?": ("lt_true", "lt_false"), "X<=0?": ("le_false", "le_true")}


class WholeProof:
    """Writes the statements of points at which whole numbers are computed or compared, and those of loops."""

    def __init__(self, proof: ProgramProof) -> None:
        """Takes the proof of the program."""
        self.proof, self.program, self.walk = proof, proof.program, proof.program.walk
        self.done: set[int] = set()

    def whole_walk(self) -> WholeWalk:
        """Returns the paths of a program with a loop."""
        assert isinstance(self.walk, WholeWalk)
        return self.walk

    def nat(self, term: Term) -> str:
        """Returns a whole number as a natural number of the definitions."""
        found = self.walk.nat(term)
        assert found is not None
        return found

    def is_whole(self, term: Term) -> str:
        """Returns the proof that a register contains a whole number as the calculator writes it."""
        return f"is_{term.name.lower()}"

    def small(self, term: Term) -> str:
        """Returns the proof that a whole number has at most ten digits."""
        return f"small_{term.name.lower()}"

    def known(self, facts: tuple[Fact, ...], *more: str) -> str:
        """Returns what is known of natural numbers, with the names of more that is, as arguments of `omega`."""
        contract = self.program.contract
        found = ["arith", *(f"small_{name.lower()}" for name in (*contract.wholes, *contract.counters)),
                 *(f"few_{name.lower()}" for name in contract.counters),
                 *(f"given_{at}" for at in range(1, len(contract.relations) + 1))]
        for at, fact in enumerate(facts):
            if fact.left and fact.left.args and self.walk.nat(fact.left.args[0]) is not None:
                found.append(f"small_{fact.left.name}")
            elif fact.left and self.walk.parts_of(fact.left):
                found += [f"small_{fact.left.name}", f"few_{fact.left.name}"]
            elif fact.relation:
                found.append(f"t{at}")
            elif fact.loop:
                found.append(f"counted_{fact.loop.number}")
        found += more
        return f"({', '.join(found)})" if len(found) > 1 else "arith"

    # Lines.

    def exact(self, point: Point) -> None:
        """Writes the statement of a line whose result is a whole number."""
        proof, after, names = self.proof, point.after[0], self.proof.names(point.facts)
        new = after.facts[-1].left
        assert new
        number = self.nat(new)
        known = self.known(point.facts)
        rows = [f"{point.name} : {proof.given(point.facts)}{proof.leaves(point)}", f"{point.name} {names} memory has ="]
        if point.result and point.result.op == "-":
            left, right = point.result.args
            rows.append(f"    let order : {self.nat(right)} ≤ {self.nat(left)} = omega {known} in")
        rows += [f"    let small : {number} < 10 ^ 10 = omega {known} in", f"    let found = whole_in registers {number} small in",
                 f"    {proof.go_on(point, after, self.exact_step(point), f'{names} found.register found.is small')}"]
        proof.put(point, "\n".join(rows))

    def exact_step(self, point: Point) -> str:
        """Returns the lemma of a line whose result is a whole number."""
        proof, text, state = self.proof, self.program.lines[point.at].text, point.state
        common, lift, stands = proof.common(point), proof.lift(state), f"l{point.at}.stands"
        if text in ("CLX", "CLST"):
            return f"{'clears_x' if text == 'CLX' else 'clears_stack'} {common} {lift} found.register found.is {stands}"
        if is_count(text):
            return self.counted_past(point)
        if NUMBER.fullmatch(text):
            number = self.nat(Term("number", (), text))
            more = "" if number == "0" else f"{number} "
            nearest = f"typed_{'whole' if more else 'zero'} itself {more}found.ten {'(omega arith) ' if more else ''}found.units_is"
            typed = f"record {{ answer = Ok found.ten; nearest = {nearest}; value = refl; }}"
            is_number = f"(record {{ exponent = record {{ biased = 99; in_range = omega arith; }}; biased = refl; typed = {typed}; }})"
            return f"enters_number {common} {characters_of(text)} found.ten found.register {is_number} found.of_ten {stands} {lift}"
        assert point.result
        if text in ("INT", "FRC", "MOD"):
            return self.part_of_whole(point)
        value, lemma, exact, order = {"+": ("OfTwo twos.Sum Y X", "added", "sum_whole", ""),
                                      "-": ("OfTwo twos.Difference Y X", "subtracted", "difference_whole", "order ")}[point.result.op]
        left, right = point.result.args
        nearest = f"{exact} itself {self.nat(left)} {self.nat(right)} found.ten {order}found.units_is"
        if register_line(text):
            return RegisterProof(proof, point).exact(nearest)
        return (f"works_on_two {common} {lift} functions.{PLAIN[text]} ({value}) found.register refl {stands} ({lemma} "
                f"{proof.stack(state)} memory {self.program.amount(left)} {self.program.amount(right)} {proof.holds(left)} "
                f"{proof.holds(right)} found.ten found.register found.of_ten ({nearest}))")

    def part_of_whole(self, point: Point) -> str:
        """Returns the lemma of INT, FRC or MOD."""
        proof, result, x = self.proof, point.result, point.state.x
        assert result
        common, stands, known = proof.common(point), f"l{point.at}.stands", f"{proof.stack(point.state)} memory"
        begin = f"works_on_{'two' if result.op == 'MOD' else 'one'} {common} {proof.lift(point.state)} functions.{PLAIN[result.op]}"
        if result.op != "MOD":
            parts = proof.counters.parts(x)
            is_part = f"(count_is {parts[0]} {parts[1]} (omega {self.known(point.facts)}))" if parts else f"(whole_part {self.nat(x)})"
            value, lemma = "IntegerPart", "made_whole"
            if result.op == "FRC":
                value, lemma, is_part = "Fraction", "made_fraction", f"(no_fraction {self.nat(x)})"
            part = f"(pos ({self.nat(result)} * one))"
            nearest = "(subst (λ (z : ℤ). Nearest z 1 (Ok found.ten)) found.units_is (itself found.ten))"
            return (f"{begin} (OfOne ones.{value} X) found.register refl {stands} ({lemma} {known} {proof.program.amount(x)} "
                    f"{proof.holds(x)} found.ten found.register found.of_ten {part} {is_part} {nearest})")
        left, right = result.args
        y, divisor = self.nat(left), self.nat(right)
        first, second = (f"(whole_in registers {one} (omega {self.known(point.facts)}))" for one in (y, divisor))
        rest = (f"(modulo_some itself {y} {divisor} ({y} / {divisor}) ({y} % {divisor}) (whole_remainder {y} {divisor} (omega arith)) "
                f"{first}.ten {second}.ten found.ten {first}.units_is {second}.units_is found.units_is (omega arith))")
        return (f"{begin} (OfTwo twos.Remainder Y X) found.register refl {stands} (reduced {known} {proof.program.amount(left)} "
                f"{proof.program.amount(right)} {proof.holds(left)} {proof.holds(right)} found.ten found.register found.of_ten "
                f"{first}.ten {second}.ten {first}.units_is {second}.units_is {rest})")

    def counted_past(self, point: Point) -> str:
        """Returns the lemma of a line that counts a whole number up, after which the next line is skipped."""
        line, value = RegisterProof(self.proof, point), point.state.register(f"R{point.register:02}")
        number = self.nat(value)
        return (f"goes_past itself {line.place()} {line.lift} parameters.IncrementSkip Up refl refl refl {line.stands} "
                f"{self.program.amount(value)} {self.proof.holds(value)} found.ten found.register found.of_ten (found.units_is ∙ sym "
                f"(number_up_whole {number})) (passes_whole {number}) _ l{point.at + 1}.next l{point.at + 1}.stands")

    def compare(self, point: Point) -> None:
        """Writes the statement of a test that compares whole numbers: both ways."""
        proof, names = self.proof, self.proof.names(point.facts)
        text = self.program.lines[point.at].text
        relation = point.after[0].facts[-1].relation
        assert relation
        first, _, second = relation
        rows = [f"{point.name} : {proof.given(point.facts)}{proof.leaves(point)}", f"{point.name} {names} memory has =",
                f"    elim (cases_lt {first} {second}) ["]
        for after, way in zip(point.after, ("inl", "inr")):
            truth = self.truth(point, text, way == "inl", first, second)
            step = proof.tests.step(point, text, truth, after.at == point.at + 1)
            rows.append(f"      | {way} which ↦ {proof.go_on(point, after, step, f'{names} which')}")
        proof.put(point, "\n".join([*rows, "    ]"]))

    def count(self, point: Point) -> None:
        """Writes the statement of DSE: both ways."""
        proof, names, known = self.proof, self.proof.names(point.facts), self.known(point.facts)
        register = int(self.program.lines[point.at].text[4:])
        value = point.state.register(f"R{register:02}")
        number = self.nat(value)
        rows = [f"{point.name} : {proof.given(point.facts)}{proof.leaves(point)}", f"{point.name} {names} memory has =",
                f"    let some : 0 < {number} = omega {known} in", f"    let small : ({number} - 1) < 10 ^ 10 = omega {known} in",
                f"    let found = whole_in registers ({number} - 1) small in", f"    elim (cases_lt 0 ({number} - 1)) ["]
        given = (f"itself {proof.common(point)} {proof.lift(point.state)} {register} {number} (omega arith) refl (omega (arith, inside)) "
                 f"l{point.at}.stands some {proof.holds(value)} found.ten found.register found.units_is found.of_ten which")
        skipped = f"_ l{point.at + 1}.next l{point.at + 1}.stands"
        for after, way, step in zip(point.after, ("inl", "inr"), (f"counts_down {given}", f"counts_to_zero {given} {skipped}")):
            rows.append(f"      | {way} which ↦ {proof.go_on(point, after, step, f'{names} found.register found.is small which')}")
        proof.put(point, "\n".join([*rows, "    ]"]))

    def truth(self, point: Point, text: str, is_less: bool, first: str, second: str) -> str:
        """Returns the proof of the truth value of what a test compares."""
        if text in COMPARED:
            order = f"{second} {first}" if "=" in text else f"{first} {second}"
            return f"{COMPARED[text][0 if is_less else 1]} {order} which"
        x = point.state.x
        known = f"{self.proof.register(x)} {self.nat(x)} which {self.is_whole(x)}"
        found = f"is_some {known}" if is_less else f"is_zero determined {known}"
        return f"turned (bytes_eq {self.proof.register(x)} zeros) {'false' if is_less else 'true'} ({found})" if text[1] == "#" else found

    # Loops.

    def rows_of(self, loop: Loop) -> list[str]:
        """Returns what a round of a loop is: what it begins with, and what the program leaves from there."""
        proof, number = self.proof, loop.number
        assert loop.start
        facts = proof.given(loop.known[:-1], len(loop.context))
        at = proof.at(loop.place)
        lift = proof.lift(loop.state)
        return [f"Round_{number} : {proof.given(loop.context)}ℕ → Type 0",
                f"{self.within(loop, 'Round')} left = {facts}left ≡ {loop.measure} → (memory : RegisterMap)",
                f"    → HasBecome old {proof.stack(loop.state)} {proof.contents(loop.state)} memory",
                f"    → Leaves pages {loop.most('left')} (before_line memory {at} false returns {lift}) After"]

    def within(self, loop: Loop, name: str) -> str:
        """Returns the name of a statement about a loop, with what is known from the loops in which it is."""
        return " ".join([f"{name}_{loop.number}", *self.proof.listed(loop.context)])

    def loop(self, loop: Loop) -> None:
        """Writes the statements of a loop: its points, and that it ends."""
        if loop.number in self.done or not loop.start:
            return
        self.done.add(loop.number)
        proof, number = self.proof, loop.number
        rows = self.rows_of(loop)
        proof.put(loop.start, "\n".join(["abbrev " + rows[0], *rows[1:]]))
        context, round_of = proof.given(loop.context), self.within(loop, "Round")
        proof.put(loop.start, f"abbrev Again_{number} : {context}ℕ → Type 0\n"
                              f"{self.within(loop, 'Again')} left = (fewer : ℕ) → fewer < left → {round_of} fewer")
        proof.define(loop.start)
        names, own = proof.names(loop.known[:-1]), proof.names(loop.known[:-1], len(loop.context))
        shown = f"({round_of})" if loop.context else round_of
        proof.put(loop.start, "\n".join([
            f"loop_{number} : {context}(left : ℕ) → {round_of} left",
            f"{self.within(loop, 'loop')} = by_rounds {shown} (λ (left : ℕ) again {own} counted memory has. {loop.start.name} {names} left "
            "again counted memory has)"]))

    def arguments(self, loop: Loop, state: State) -> str:
        """Returns what a round begins with, at a state, as arguments. Its comparisons have been named before."""
        found = []
        for fact in loop.facts:
            if fact.switch:
                found.append(self.proof.lift(state))
            if not fact.left:
                continue
            here = state.register(self.register_of(fact.left))
            parts = self.walk.parts_of(fact.left) and self.proof.counters.parts(here)
            if parts:
                found += [*parts, self.proof.register(here), self.is_whole(here), self.small(here), f"few_{here.name.lower()}"]
            elif fact.left.args:
                found += [self.nat(here), self.proof.register(here), self.is_whole(here), self.small(here)]
            else:
                found.append(self.proof.register(here))
        return " ".join([*found, *(f"kept_{at}" for at in range(1, len(loop.relations) + 1))])

    @staticmethod
    def register_of(left: Term) -> str:
        """Returns the register whose content at the label of a loop has a name."""
        return left.name.rsplit("_", 1)[0].upper()

    def restated(self, loop: Loop, state: State) -> str:
        """Returns the proof that memory is described by the registers that the loop writes, as an argument."""
        proof = self.proof
        stack, contents = proof.stack(state), proof.contents(state)
        numbers = [number for number, _ in loop.state.written]
        if not numbers:
            return "has"
        parts = ["(data_in old)"]
        for number in numbers:
            parts.append(f"(with_content {parts[-1]} {number} {proof.register(state.register(f'R{number:02}'))})")
        same = proof.unchanged(state, "not_")
        for at, number in enumerate(numbers):
            content = proof.register(state.register(f"R{number:02}"))
            same = f"kept_but {contents} {parts[at]} {number} {content} n refl (λ not_{number}. {same})"
        return f"(recontented old {stack} {contents} {parts[-1]} memory has (λ n. {same}))"

    def comparisons(self, point: Point, loop: Loop, known: str) -> list[tuple[str, int, str]]:
        """Returns lines that prove the comparisons of a loop at a state, each with its line and its text."""
        found = []
        for at, (_, _, _, one) in enumerate(loop.relations, 1):
            left, sign, right = self.whole_walk().compared(one, point.state)
            found.append((f"    let kept_{at} : {left} {sign} {right} = omega {known} in", one.line, one.text))
        return found

    def enter(self, point: Point) -> None:
        """Writes the statement of the place at which a loop begins."""
        assert point.entered
        loop, measure = point.entered
        self.loop(loop)
        proof, names, known = self.proof, self.proof.names(point.facts), self.known(point.facts)
        run = (f"{self.within(loop, 'loop')} {measure} {self.arguments(loop, point.state)} refl memory "
               f"{self.restated(loop, point.state)}")
        rows = [f"    {run}"]
        most, bound = loop.most(measure), self.whole_walk().bound(measure, point.facts)
        if str(most) != str(point.most):
            rows = [f"    let bounded : {measure} ≤ {bound} = omega {known} in",
                    f"    more_lines_suffice pages {most} {point.most} _ After (omega (arith, mul-le-mul_left {loop.round()} bounded))",
                    f"    ({run})"]
        proof.put_rows(point, [
            (f"{point.name} : {proof.given(point.facts)}{proof.leaves(point)}", 0, ""), (f"{point.name} {names} memory has =", 0, ""),
            *self.comparisons(point, loop, known), *((one, 0, "") for one in rows)])

    def again(self, point: Point) -> None:
        """Writes the statement of the end of a round that another one follows."""
        loop = point.again
        assert loop
        proof, names, known = self.proof, self.proof.names(point.facts), self.known(point.facts)
        measure, number = self.whole_walk().measure(loop, point.state), loop.number
        arguments = self.arguments(loop, point.state)
        contract = loop.contract
        enough, falls = "less", []
        if loop.round().parts:
            enough = f"mul-le-mul_left {loop.round()} falls"
            falls = [(f"    let falls : {measure} + 1 ≤ left_{number} = omega (arith, less) in", 0, "")]
        proof.put_rows(point, [
            (f"{point.name} : {proof.given(point.facts)}{proof.leaves(point)}", 0, ""), (f"{point.name} {names} memory has =", 0, ""),
            *self.comparisons(point, loop, known),
            (f"    let less : {measure} < left_{number} = omega {known} in", contract.measure_line, f"decreases {contract.measure}"),
            *falls, (f"    more_lines_suffice pages {loop.most(measure)} {point.most} _ After (omega (arith, {enough}))", 0, ""),
            (f"    (again_{number} {measure} less {arguments} refl memory {self.restated(loop, point.state)})", 0, "")])

    # Claims.

    def claim(self, point: Point, register: str, value: Term, more: list[str]) -> str:
        """Returns the proof that a register contains a whole number at the end of the program. `more` are names of what is known."""
        reached = point.state.register(register)
        same = f"omega {self.known(point.facts, *more)}"
        return (f"(let same : {self.nat(reached)} ≡ {self.nat(value)} = {same} in subst (λ (n : ℕ). IsRegisterOf (pos (n * one)) "
                f"{self.proof.register(reached)}) same {self.is_whole(reached)})")

    def same_register(self, point: Point, register: str, value: Term, more: list[str]) -> str:
        """Returns the proof that a register contains what another one contained before the program, by their whole numbers. `more` are
        names of what is known."""
        reached = point.state.register(register)
        found = self.claim(point, register, value, more)
        return (f"(let own = {found} in determined (pos ({self.nat(value)} * one)) {self.proof.register(reached)} "
                f"{self.proof.register(value)} own.valid {self.is_whole(value)}.valid own.holds {self.is_whole(value)}.holds)")
