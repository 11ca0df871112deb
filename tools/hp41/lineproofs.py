"""The proof of a theorem about a program: one statement for each line on each path, the last ones first."""
from __future__ import annotations

from .lineclaims import Condition, Term
from .linecalls import CallProof, JumpProof
from .linecounterproofs import CounterProof
from .lineloops import WholeProof
from .lineregisterproofs import RegisterProof
from .lineregisters import register_line
from .linelemmas import LAWS, LAW_NAMES, LAW_TYPES, ONE, SIMPLE, TWO, chosen, imports_of
from .linesearches import Searches
from .linetestproofs import TestProof
from .linepoints import PLACES, Fact, Point, State
from .linesteps import EXACT
from .linetheorems import FAULTS, Program, new_results
from .lineterms import GO_TO, LOCAL, NAMED, PLAIN, SILENT, characters_of, kinds_of, term_of
from .needed import needed, words_in


class ProgramProof:
    """The proof of a program's theorem. `rows` has for each line of the file the number of the program line, or of the line with the claim,
    to which it belongs, and the text of the claim."""

    def __init__(self, program: Program) -> None:
        """Writes the statements of all points. `uses` has the names of the programs whose theorems the proof cites."""
        self.program, self.uses = program, program.callees()
        # The contents of registers that subroutines have left and that are no variables.
        self.bound: dict[str, str] = {}
        self.parts: list[str] = []
        self.rows: list[tuple[str, int, str]] = []
        self.whole_part, self.counters, self.tests = WholeProof(self), CounterProof(self), TestProof(self)
        self.define(program.walk.start)

    # Values.

    def signed(self, term: Term) -> str:
        """Returns the decimal of a negative or an absolute value, with what is known of it, as an argument."""
        name = {"CHS": "negative_of", "ABS": "absolute_of", "SIGN": "unit_of_number"}[term.op]
        inner = term.args[0]
        return f"({name} itself decimals {self.register(inner)} {self.program.amount(inner)} {self.holds(inner)})"

    def decimal(self, term: Term) -> str:
        """Returns the decimal of a value that the program computes, as an argument."""
        if term.op in EXACT:
            return f"{self.signed(term)}.0"
        if term.args:
            return self.program.result(term)
        return {"zero": "Zero", "pi": "pi_ten"}.get(term.op) or self.program.number(term.name)

    def register(self, term: Term) -> str:
        """Returns the register of a value, as an argument."""
        if term.op == "left":
            return self.bound.get(term.name, term.name)
        return self.program.register(term, "old") if term.op == "old" else f"(register_of registers {self.decimal(term)}).0"

    def holds(self, term: Term) -> str:
        """Returns the proof that the register contains the number of a value, as an argument."""
        if term.op in ("old", "left"):
            name = term.name.lower()
            return f"in_{name}" if self.program.walk.is_opaque(term) else f"is_{name}.holds"
        known = f"(register_of registers {self.decimal(term)}).1.holds"
        return f"({known} ∙ ap (λ (z : ℤ). Number z) {self.signed(term)}.1)" if term.op in EXACT else known

    def stack(self, state: State) -> str:
        """Returns the stack of a state, as an argument."""
        return "(record { " + " ".join(f"{place} = {self.register(state.register(name))};" for name, place in PLACES.items()) + " })"

    def contents(self, state: State) -> str:
        """Returns the data registers of a state, as an argument."""
        found = "(data_in old)"
        for number, value in state.written:
            found = f"(with_content {found} {number} {self.register(value)})"
        return found

    def nearest(self, term: Term, answer: str) -> str:
        """Returns what it means that an answer is the result of an operation."""
        return self.program.nearest(term, answer)

    def truth(self, condition: Condition) -> str:
        """Returns the truth value of a condition, as an argument."""
        if condition.relation == "=":
            right = "zeros" if condition.right.op == "zero" else self.register(condition.right)
            return f"(bytes_eq {self.register(condition.left)} {right})"
        return f"({self.program.truth(condition, 'old')})"

    # Facts on a path.

    def given(self, facts: tuple[Fact, ...], first: int = 0) -> str:
        """Returns the facts from a place on as the arguments of a statement."""
        found = ""
        for at, fact in enumerate(facts[first:], first):
            if fact.result:
                name = self.program.result(fact.result)
                found += f"({name} : Ten) (is_{name} : {self.nearest(fact.result, f'(Ok {name})')}) → "
            elif fact.condition:
                found += f"(t{at} : {self.truth(fact.condition)} ≡ {'true' if fact.condition.is_true else 'false'}) → "
            elif fact.left:
                found += self.given_left(fact.left)
            elif fact.relation:
                found += f"(t{at} : {' '.join(fact.relation)}) → "
            elif fact.loop:
                number = fact.loop.number
                again = " ".join([f"Again_{number}", *self.listed(fact.loop.context), f"left_{number}"])
                found += f"(left_{number} : ℕ) → (again_{number} : {again}) → "
                found += f"(counted_{number} : left_{number} ≡ {fact.loop.measure}) → "
            else:
                found += f"({fact.switch} : Bool) → "
        return found

    def given_left(self, left: Term) -> str:
        """Returns what is known of a register, as arguments of a statement."""
        if self.counters.parts(left):
            return self.counters.given(left)
        name, value = left.name, left.args
        number = self.program.walk.nat(value[0]) if value else None
        if number is not None:
            own = f"({number} : ℕ) → " if value[0].op == "whole" else ""
            return (f"{own}({name} : List ℕ) → (is_{name} : IsRegisterOf (pos ({number} * one)) {name}) → "
                    f"(small_{name} : {number} < 10 ^ 10) → ")
        known = f"(in_{name} : holding_of {name} ≡ Number {self.program.amount(value[0])}) → " if value else ""
        return f"({name} : List ℕ) → {known}"

    def names(self, facts: tuple[Fact, ...], first: int = 0) -> str:
        """Returns the names of the facts from a place on."""
        return " ".join(self.listed(facts)[first:])

    def listed(self, facts: tuple[Fact, ...]) -> list[str]:
        """Returns the names of each fact."""
        return [self.name_of(at, fact) for at, fact in enumerate(facts)]

    def name_of(self, at: int, fact: Fact) -> str:
        """Returns the names of a fact."""
        if fact.result:
            return f"{self.program.result(fact.result)} is_{self.program.result(fact.result)}"
        if fact.left and self.counters.parts(fact.left):
            return self.counters.names(fact.left)
        if fact.left:
            value, name = fact.left.args, fact.left.name
            if value and self.program.walk.nat(value[0]) is not None:
                own = f"{value[0].name} " if value[0].op == "whole" else ""
                return f"{own}{name} is_{name} small_{name}"
            return f"{name} in_{name}" if value else name
        if fact.loop:
            return f"left_{fact.loop.number} again_{fact.loop.number} counted_{fact.loop.number}"
        return fact.switch or f"t{at}"

    # Places.

    def at(self, place: int) -> str:
        """Returns the position of a line."""
        return "at" if place == 0 else f"l{place - 1}.next"

    def common(self, point: Point) -> str:
        """Returns the first arguments of the lemmas about a line."""
        return (f"pages old sixteen sound {self.stack(point.state)} {self.contents(point.state)} memory has {self.at(point.at)} "
                f"l{point.at}.next {'false' if point.at else 'zero'} returns")

    @staticmethod
    def lift(state: State) -> str:
        """Returns whether stack lift is on."""
        return state.switch if state.lift is None else "true" if state.lift else "false"

    # Statements.

    def leaves(self, point: Point, lift: str | None = None) -> str:
        """Returns the statement of a point, for a memory."""
        return (f"(memory : RegisterMap) → HasBecome old {self.stack(point.state)} {self.contents(point.state)} memory → "
                f"Leaves pages {point.most} (before_line memory {self.at(point.at)} {'false' if point.at else 'zero'} returns "
                f"{lift or self.lift(point.state)}) After")

    def define(self, point: Point) -> None:
        """Writes the statement of a point, after those of the points after it."""
        for one in point.after:
            self.define(one)
        getattr(self, f"define_{point.kind}")(point)

    def put(self, point: Point, text: str) -> None:
        """Adds statements that belong to a program line."""
        self.parts.append(text)
        self.rows += [("", self.program.lines[point.at].number, "")] * (text.count("\n") + 1)

    def put_rows(self, point: Point, rows: list[tuple[str, int, str]]) -> None:
        """Adds statements that belong to a program line, except for lines that belong to a claim: each has its text, and the line and the
        text of its claim."""
        self.parts.append("\n".join(row for row, _, _ in rows))
        self.rows += [("", line or self.program.lines[point.at].number, claim) for _, line, claim in rows]

    def define_exact(self, point: Point) -> None:
        """Writes the statement of a line whose result is a whole number."""
        self.whole_part.exact(point)

    def define_compare(self, point: Point) -> None:
        """Writes the statement of a test that compares whole numbers."""
        self.whole_part.compare(point)

    def define_count(self, point: Point) -> None:
        """Writes the statement of DSE."""
        self.whole_part.count(point)

    def define_count_on(self, point: Point) -> None:
        """Writes the statement of a line that counts a counter."""
        self.counters.count(point)

    def define_fraction(self, point: Point) -> None:
        """Writes the statement of FRC of a counter."""
        self.counters.fraction(point)

    def define_typed(self, point: Point) -> None:
        """Writes the statement of a number line with a counter."""
        self.counters.typed(point)

    def define_enter(self, point: Point) -> None:
        """Writes the statement of the place at which a loop begins."""
        self.whole_part.enter(point)

    def define_again(self, point: Point) -> None:
        """Writes the statement of the end of a round."""
        self.whole_part.again(point)

    def go_on(self, point: Point, after: Point, step: str, facts: str) -> str:
        """Returns the proof that a line continues, and that the program leaves what it should from there."""
        rest = f"(line_then pages {after.most} _ _ After done.step ({after.name} {facts} done.memory done.has))"
        if after.most.parts or after.most.more(1) != point.most:
            known = f"(1 + {after.most})" if after.most.parts else str(after.most.more(1))
            rest = f"(more_lines_suffice pages {known} {point.most} _ After (omega arith) {rest})"
        return f"let done = {step} in {rest}"

    def define_line(self, point: Point) -> None:
        """Writes the statement of a line after which the program always continues at the same line."""
        after, names = point.after[0], self.names(point.facts)
        self.put(point, f"{point.name} : {self.given(point.facts)}{self.leaves(point)}\n{point.name} {names} memory has =\n    "
                        f"{self.go_on(point, after, self.step(point), self.names(after.facts))}")

    def define_lift(self, point: Point) -> None:
        """Writes the statement of a line whose effect depends on stack lift."""
        on, off = point.after
        names = self.names(point.facts)
        by = f"{point.name}_by"
        self.put(point, f"{by} : {self.given(point.facts)}(on : Bool) → {self.leaves(point, 'on')}\n"
                        f"{by} {names} true memory has = {self.widened(point, on, names)}\n"
                        f"{by} {names} false memory has = {self.widened(point, off, names)}\n\n"
                        f"{point.name} : {self.given(point.facts)}{self.leaves(point)}\n"
                        f"{point.name} {names} memory has = {by} {names} {point.state.switch} memory has")

    @staticmethod
    def widened(point: Point, after: Point, names: str) -> str:
        """Returns the proof of another point at the same line, for the number of lines of this one."""
        text = f"{after.name} {names} memory has"
        return text if after.most == point.most else (f"more_lines_suffice pages {after.most} {point.most} _ After (omega arith) "
                                                      f"({text})")

    def define_call(self, point: Point) -> None:
        """Writes the statement of a call."""
        names = self.names(point.facts)
        self.put(point, f"{point.name} : {self.given(point.facts)}{self.leaves(point)}\n{point.name} {names} memory has =\n    "
                        f"{CallProof(self, point).text()}")

    def define_jump(self, point: Point) -> None:
        """Writes the statement of GTO with a name."""
        self.put(point, f"{point.name} : {self.given(point.facts)}{self.leaves(point)}\n{point.name} {self.names(point.facts)} memory has"
                        f" =\n    {JumpProof(self, point).text()}")

    def define_left(self, point: Point) -> None:
        """Writes the statement that the claims are true after the program to which GTO with a name leads."""
        names, is_lifted = self.names(point.facts), self.program.walk.leaves_lift()
        memory = f"HasBecome old {self.stack(point.state)} {self.contents(point.state)} left.machine.memory"
        head = (f"{point.name} : {self.given(point.facts)}(left : Left) → HasReturned start left → {memory} → "
                f"{'left.machine.focal.lift ≡ true → ' if is_lifted else ''}After left\n"
                f"{point.name} {names} left returned has{' lifted' if is_lifted else ''} =")
        self.put_claims(point, head, "", ("returned", "has", "lifted"))

    def define_test(self, point: Point) -> None:
        """Writes the statement of a test: both ways."""
        self.tests.both(point)

    def define_outcome(self, point: Point) -> None:
        """Writes the statement of a function whose result may be out of range."""
        term, after = point.result, point.after[0]
        assert term
        names, by, name = self.names(point.facts), f"{point.name}_by", self.program.result(term)
        is_quotient = term.op in ("/", "1/X")
        found = (f"(quotients {self.exact(term)})" if is_quotient else f"(fractions {self.exact(term)} (omega arith))")
        lemma = (TWO.get(term.op) or ONE[term.op])[2]
        rows = [f"{by} : {self.given(point.facts)}(answer : Result Ten DecimalFault) → {self.nearest(term, 'answer')} → "
                f"{self.leaves(point)}",
                f"{by} {names} (Ok {name}) is_{name} memory has =\n    "
                f"{self.go_on(point, after, self.step(point), self.names(after.facts))}",
                f"{by} {names} (Err Range) is memory has =\n    {self.failing(point, 'OUT OF RANGE', lemma)}",
                f"{by} {names} (Err Data) is memory has =\n    " +
                (self.failing(point, "DATA ERROR", "no_quotient" if term.op == "/" else "no_inverse") if is_quotient else
                 f"absurd (never_data {self.exact(term)} is)"),
                "", f"{point.name} : {self.given(point.facts)}{self.leaves(point)}",
                f"{point.name} {names} memory has = {by} {names} {found}.answer {found}.right memory has"]
        self.put(point, "\n".join(rows))

    def exact(self, term: Term) -> str:
        """Returns the exact value of an operation: a numerator and a denominator, as two arguments."""
        return self.nearest(term, "").partition(" ")[2].strip()

    def failing(self, point: Point, error: str, lemma: str) -> str:
        """Returns the proof that a function stops the program with an error."""
        errors = self.program.contract.errors
        text, place = self.program.lines[point.at].text, chosen(errors.index(error), len(errors))
        stops = RegisterProof(self, point).failing(error) if register_line(text) else self.stopping(point, error, lemma)
        return (f"more_lines_suffice pages 1 {point.most} _ After (omega arith)\n    (by_last pages _ _ After\n    ({stops})\n    "
                f"{place})")

    def stopping(self, point: Point, error: str, lemma: str) -> str:
        """Returns the lemma of a function without an operand that stops the program with an error."""
        term, state = point.result, point.state
        assert term
        row = f"(rows.of_y_and_x ({TWO[term.op][0]}))" if term.op in TWO else f"(rows.of_x ({ONE[term.op][0]}))"
        known = f"{self.stack(state)} memory {' '.join(map(self.program.amount, term.args))} {' '.join(map(self.holds, term.args))}"
        clear = f"(clear_there {self.common(point)} range_ignore clear_24)"
        return (f"fails {self.common(point)} {self.lift(state)} functions.{PLAIN[self.program.lines[point.at].text]} {row} "
                f"{FAULTS[error]} refl l{point.at}.stands clear_25 ({lemma} {known} {clear} is)")

    def step(self, point: Point) -> str:
        """Returns the lemma of a line that continues."""
        text, state, common = self.program.lines[point.at].text, point.state, self.common(point)
        lift, stands = self.lift(state), f"l{point.at}.stands"
        if register_line(text):
            return RegisterProof(self, point).step()
        if point.result:
            return self.computing(point, point.result)
        if text in SIMPLE:
            return f"{SIMPLE[text]} {common} {lift} {stands}"
        if text in SILENT:
            return f"only_lifts {common} {lift} functions.{PLAIN[text]} refl {stands}"
        if text in ("CLX", "CLST"):
            zero = "(register_of registers Zero)"
            return f"{'clears_x' if text == 'CLX' else 'clears_stack'} {common} {lift} {zero}.0 {zero}.1 {stands}"
        if text == "PI":
            return f"recalls_pi {common} itself (register_of registers pi_ten).0 (register_of registers pi_ten).1 {stands} {lift}"
        if text == "LASTX":
            return f"recalls_last {common} {stands} {lift}"
        if NAMED.fullmatch(text):
            return f"passes_global {common} {lift} link_{point.at} key_{point.at} {str(term_of(text, 0)).split(' ', 3)[3]} {stands}"
        if GO_TO.fullmatch(text):
            target = self.at(self.program.walk.jumps[point.at])
            return f"goes_to {common} {lift} {int(text[4:])} distance_{point.at} {target} {stands} lead_{point.at}"
        local = LOCAL.fullmatch(text)
        if local:
            return f"passes_label {common} {lift} {int(local[1])} {stands}"
        name = self.program.number(text)
        return (f"enters_number {common} {characters_of(text)} {name} (register_of registers {name}).0 is_{name} "
                f"(register_of registers {name}).1 {stands} {lift}")

    def computing(self, point: Point, term: Term) -> str:
        """Returns the lemma of a function that has a result."""
        common, lift, stands = self.common(point), self.lift(point.state), f"l{point.at}.stands"
        stack = self.stack(point.state)
        known = f"{stack} memory {' '.join(map(self.program.amount, term.args))} {' '.join(map(self.holds, term.args))}"
        decimal = self.decimal(term)
        result = f"(register_of registers {decimal})"
        if term.op == "CHS":
            return f"changes_sign {common} {lift} {result}.0 {stands} (made_negative {known} {decimal} {result}.0 {result}.1 " \
                   f"{self.signed(term)}.2)"
        if term.op in ("ABS", "SIGN"):
            value, lemma = ("AbsoluteValue", "made_absolute") if term.op == "ABS" else ("Unit", "made_unit")
            return f"works_on_one {common} {lift} functions.{PLAIN[term.op]} (OfOne ones.{value} X) {result}.0 refl {stands} " \
                   f"({lemma} {known} {decimal} {result}.0 {result}.1 {self.signed(term)}.2)"
        value, lemma, _ = TWO.get(term.op) or ONE[term.op]
        count = "two" if term.op in TWO else "one"
        return f"works_on_{count} {common} {lift} functions.{PLAIN[term.op]} ({value}) {result}.0 refl {stands} " \
               f"({lemma} {known} {decimal} {result}.0 {result}.1 is_{decimal})"

    def define_end(self, point: Point) -> None:
        """Writes the statement of the last line: the claims."""
        program, state = self.program, point.state
        text, names = program.lines[point.at].text, self.names(point.facts)
        back = (f"returns_back {self.common(point)} {self.lift(state)} lists l{point.at}.stands" if text == "RTN" else
                f"ends_back {self.common(point)} {self.lift(state)} lists link_{point.at} marks_{point.at} l{point.at}.stands")
        more = f"more_lines_suffice pages 1 {point.most} _ After (omega arith)\n    (" if point.most.parts else ""
        head = (f"{point.name} : {self.given(point.facts)}{self.leaves(point)}\n{point.name} {names} memory has =\n"
                f"    let back = {back} in\n    {more}by_last pages _ back.left After back.step")
        memory = f"HasBecome old {self.stack(state)} {self.contents(state)} m"
        becomes = f"subst (λ (m : RegisterMap). {memory}) (sym back.memory) has"
        self.put_claims(point, head, more, ("back.returned", becomes, "back.lift"))

    def put_claims(self, point: Point, head: str, more: str, proofs: tuple[str, str, str]) -> None:
        """Adds the statement of the end of the program: what is true there, by the proofs of where it returns to, of what memory has
        become, and that stack lift is on. `more` is what was opened before."""
        program, state = self.program, point.state
        returned, becomes, lift = proofs
        others = " ".join(["n", *(f"other_{number}" for number in program.written())])
        fields = [f"returned = {returned};", f"stack = {self.stack(state)};", f"contents = {self.contents(state)};", f"becomes = {becomes};",
                  f"others = λ {others}. {self.unchanged(state)};", *([f"lift = {lift};"] if program.walk.leaves_lift() else [])]
        self.put(point, "\n".join([head, f"    {'(inl ' if program.contract.errors else ''}record {{", *(f"      {one}" for one in fields)]))
        for at in range(len(program.equations)):
            one = program.equations[at][0]
            small = [f"small_{at + 1} = omega {self.whole_part.known(point.facts)};"] if program.is_sum(at) else []
            for row in [f"claim_{at + 1} = {self.claim(point, at)};", *small]:
                self.parts[-1] += f"\n      {row}"
                self.rows.append(("", one.line, one.text))
        self.parts[-1] += "\n    }" + ")" * (bool(program.contract.errors) + bool(more))
        self.rows.append(("", program.lines[point.at].number, ""))

    def unchanged(self, state: State, others: str = "other_") -> str:
        """Returns the proof that the other data registers are as before. `others` begins the names of what says that they are others."""
        found, steps = "(data_in old)", []
        for number, value in state.written:
            steps.append(f"other_content {found} {number} {self.register(value)} n {others}{number}")
            found = f"(with_content {found} {number} {self.register(value)})"
        return " ∙ ".join(reversed(steps)) or "refl"

    def claim(self, point: Point, at: int) -> str:
        """Returns the proof of a claim on a path."""
        one, value, condition = self.program.equations[at]
        known = next((place for place, fact in enumerate(point.facts) if fact.condition and condition
                      and (fact.condition.relation, fact.condition.left, fact.condition.right)
                      == (condition.relation, condition.left, condition.right) and fact.condition.is_true != condition.is_true), None)
        if known is not None and condition:
            both = f"if_so t{known}" if condition.is_true else f"t{known} if_so"
            return f"λ if_so. absurd (clash {self.truth(condition)} {both})"
        if condition and self.program.is_never(point, condition):
            return f"λ if_so. absurd (omega {self.whole_part.known(point.facts, 'if_so')})"
        more = ["if_so"] if condition and self.program.compared(condition) else []
        results = "".join(f"{self.program.result(term)}, is_{self.program.result(term)}, " for term in new_results(self.program, value))
        if self.program.walk.nat(value) is not None:
            reached = point.state.register(one.register)
            proof = ("refl" if value == reached else self.whole_part.same_register(point, one.register, value, more)
                     if value.op == "old" else self.whole_part.claim(point, one.register, value, more))
        else:
            proof = "refl" if value.op == "old" else self.holds(point.state.register(one.register))
        return f"{'λ if_so. ' if condition else ''}{f'({results}{proof})' if results else proof}"

    # The file.

    def text(self) -> str:
        """Returns the file of the proof."""
        program = self.program
        lines = [self.outer(), Searches(program).head()]
        words = words_in([*lines, *self.parts, self.whole()])
        imports = [one for line in imports_of(program) for one in needed(line, words)]
        head = [f"-- The proof that {program.shown} leaves what is claimed.", *imports, "", *lines]
        before = "\n".join(head).count("\n") + 1
        deep = "      " if program.needs_start else "    "
        body = "\n\n".join("\n".join(deep + row if row else row for row in part.split("\n")) for part in self.parts)
        spaced: list[tuple[str, int, str]] = []
        at = 0
        for part in self.parts:
            count = part.count("\n") + 1
            spaced += [*self.rows[at:at + count], ("", 0, "")]
            at += count
        self.rows = [("", 0, "")] * before + spaced
        return "\n".join([*head, body, "", self.whole()])

    def outer(self) -> str:
        """Returns the head of the module with the requirements."""
        program = self.program
        rows = [f"module _ {LAWS} (pages : PageMap) (old : RegisterMap) (at : ℕ) (zero : Bool) (returns : List Position) (lift : Bool)",
                "    (sixteen : length old.status ≡ 16) (sound : is_sound old ≡ true)"]
        if program.used:
            rows.append(f"    (inside : {max(program.used)} < size_of old)")
        if program.contract.errors:
            rows.append("    (clear_24 : flag_of old range_ignore ≡ false) (clear_25 : flag_of old error_ignore ≡ false)")
        rows += [f"    ({name} : {kind})" for name, kind in program.variables()]
        rows += [f"    ({name} : {kind})" for name, kind in self.facts()]
        rows += [f"    {kinds_of(program.variables_of_lines())}"] * bool(program.variables_of_lines())
        if program.walk.calls:
            rows.append("    (count : ℕ) (is_memory : IsMemory count old)")
        rows += [f"    ({name} : {kind})" for name, kind in program.about_calls("old", "returns")]
        rows[-1] += " where"
        lift = self.lift(program.walk.start.state)
        return "\n".join([*rows, "  abbrev start : Machine", f"  start = before_line old at zero returns {lift}", "",
                          "  abbrev After : Left → Type 0", f"  After = {program.after('start')[1:-1]}", ""])

    def facts(self) -> list[tuple[str, str]]:
        """Returns the requirements on numbers, with their names in the proof."""
        return self.program.about_numbers("old")

    def whole(self) -> str:
        """Returns the proof of the theorem from the statement of the first line."""
        program = self.program
        none_final = "".join("(refl, " for _ in program.lines) + "tt" + ")" * len(program.lines)
        names = [name for name, _ in program.variables()]
        is_on = program.contract.is_lift_on
        before = [*(["inside"] if program.used else []), *(["clear_24", "clear_25"] if program.contract.errors else [])]
        known = [name for name, _ in self.facts()]
        calls = [name for name, _ in program.about_calls("old", "returns")]
        numbers, truths = program.parts()
        on, lift, own_start = ["is_on"] * is_on, "true" if is_on else "s.focal.lift", "own_lifted" if is_on else "own_place"
        counted = ["count", "is_memory"] if program.walk.calls else []
        own = [*before, *names, *known, *program.variables_of_lines(), *counted, *calls]
        head = [f"  run : {program.has('old', 'at', program.unknowns())} → Leaves pages {program.most} start After"]
        head += ["  run program =", "      let has = program.has in"] if program.needs_start else ["  run has ="]
        return "\n".join([
            *head, f"      let are = in_turn_to_end old sound at {program.listed()} has {none_final} in",
            f"      {program.walk.start.name} {Searches(program).given()} old (begins old sixteen sound)", "",
            f"pub proved : {LAW_TYPES} → {program.name}_Returns",
            " ".join(["proved", LAW_NAMES, "pages s count at", *numbers, *truths, *names, "is_memory sound place has", *on, *before, *known,
                      *calls]) + " =",
            f"    subst (λ (u : Machine). Leaves pages {program.most} u {program.after('u')}) "
            f"({' '.join([own_start, 's at place', *on])})",
            f"    (run {LAW_NAMES} pages s.memory at s.focal.at_line_00 s.focal.returns {lift} is_memory.status sound "
            f"{' '.join(own)} has)", ""])
