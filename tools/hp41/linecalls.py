"""The part of a proof about a program that is about a call: XEQ and the theorem about the subroutine are one run, after which the claims of
the subroutine are true."""
from __future__ import annotations

from typing import TYPE_CHECKING

from .lineclaims import Term
from .linelemmas import LAW_NAMES
from .linecounts import Count
from .linepoints import PLACES, RETURNS, Point
from .linesteps import into, stack_part
from .lineterms import CALL_NAMED

if TYPE_CHECKING:
    from .lineproofs import ProgramProof


class CallProof:
    """Writes the proof of the statement of a call."""

    def __init__(self, proof: ProgramProof, point: Point) -> None:
        """Takes the call."""
        self.proof, self.point, self.after = proof, point, point.after[0]
        self.call = proof.program.walk.calls[point.at]
        self.callee = self.call.program
        self.text_of_line = proof.program.lines[point.at].text
        self.base = f"pages old sixteen sound {proof.stack(point.state)} {proof.contents(point.state)} memory has"
        self.place = (f"{proof.at(point.at)} l{point.at}.next {'false' if point.at else 'zero'} returns {proof.lift(point.state)}")

    def target(self) -> str:
        """Returns the position of the label, as an argument."""
        return f"at_{self.callee.name.lower()}" if self.call.place is None else self.proof.at(self.call.place)

    def unknowns(self) -> list[str]:
        """Returns the links, distances and status bits of the lines of the subroutine."""
        if self.call.place is None:
            return list(map(self.callee.as_sub, self.callee.unknowns()))
        return [f"{kind}_{int(at) + self.call.place}" for kind, at in (name.rsplit("_", 1) for name in self.callee.unknowns())]

    def values(self) -> list[str]:
        """Returns the values of the variables of the subroutine's theorem."""
        program, callee = self.proof.program, self.callee
        return [*(program.amount(self.point.state.register(name)) for name in callee.contract.numbers),
                *map(self.whole, callee.contract.wholes), *(part for name in callee.contract.counters for part in self.counter(name)),
                *map(program.number, callee.numbers),
                *(program.result(into(term, self.point.state)) for term in callee.walk.required)]

    def there(self, name: str) -> str:
        """Returns the proof that a register contains before the subroutine what the state has."""
        if name in PLACES:
            return f"ap (λ (st : Stack). st.{PLACES[name]}) has.stack_is"
        return f"content_there {self.base} {int(name[1:])} (omega (arith, inside))"

    def number_there(self, name: str) -> str:
        """Returns the proof that a register contains the number that the subroutine requires, as an argument."""
        known = self.proof.holds(self.point.state.register(name))
        if name in PLACES:
            return f"(ap (λ (st : Stack). holding_of st.{PLACES[name]}) has.stack_is ∙ {known})"
        return f"(ap holding_of ({self.there(name)}) ∙ {known})"

    def whole(self, name: str) -> str:
        """Returns the whole number in a register before the subroutine."""
        found = self.proof.program.walk.nat(self.point.state.register(name))
        assert found is not None
        return found

    def whole_there(self, name: str) -> list[str]:
        """Returns the proofs that a register contains the whole number that the subroutine requires, as arguments."""
        return [self.proof.whole_part.small(self.point.state.register(name)), self.register_there(name)]

    def register_there(self, name: str) -> str:
        """Returns the proof that a register contains the number that it contains before the subroutine, as an argument."""
        term = self.point.state.register(name)
        own = f"IsRegisterOf {self.proof.program.amount(term)} register"
        return f"(subst (λ (register : List ℕ). {own}) (sym ({self.there(name)})) {self.proof.whole_part.is_whole(term)})"

    def counter(self, name: str) -> tuple[str, str]:
        """Returns the count and the final count of the counter in a register before the subroutine."""
        parts = self.proof.counters.parts(self.point.state.register(name))
        assert parts
        return parts

    def counter_there(self, name: str) -> list[str]:
        """Returns the proofs that a register contains the counter that the subroutine requires, as arguments."""
        term = self.point.state.register(name)
        return [self.proof.whole_part.small(term), f"few_{term.name.lower()}", self.register_there(name)]

    def requirements(self) -> list[str]:
        """Returns the proofs of the subroutine's requirements, as arguments."""
        callee, program = self.callee, self.proof.program
        found = [f"(memory_there {self.base} count is_memory)", f"(sound_there {self.base})", "refl", self.lines()]
        found += ["refl"] * callee.contract.is_lift_on
        if callee.used:
            found.append(f"(size_there {self.base} {max(callee.used)} (omega (arith, inside)))")
        found += [self.number_there(name) for name in callee.contract.numbers]
        found += [one for name in callee.contract.wholes for one in self.whole_there(name)]
        found += [one for name in callee.contract.counters for one in self.counter_there(name)]
        found += [f"is_{program.number(text)}" for text in callee.numbers]
        found += [f"is_{program.result(into(term, self.point.state))}" for term in callee.walk.required]
        found += [f"(omega {self.proof.whole_part.known(self.point.facts)})"] * len(callee.contract.relations)
        found += [self.room()] if callee.depth else []
        for one in callee.subs:
            found += [self.lines_of(one.name, one.needs_start, list(map(one.as_sub, one.unknowns()))),
                      f'(name_there {self.base} (codes "{one.label}") at_{one.name.lower()} finds_{one.name.lower()})']
        return found

    def room(self) -> str:
        """Returns the proof that there is room for the return addresses of the subroutine's calls, as an argument."""
        more = f"one_return_more returns (Memory l{self.point.at}.next) {RETURNS - self.proof.program.depth} few (omega arith)"
        return f"(let more = {more} in omega (arith, more))"

    def lines_of(self, name: str, needs_start: bool, unknowns: list[str]) -> str:
        """Returns the proof that memory has the lines of a program with a name, as an argument."""
        lines = f"({name}_lines {' '.join(unknowns)})" if unknowns else f"{name}_lines"
        return f"({'program' if needs_start else 'lines'}_there {self.base} at_{name.lower()} {lines} has_{name.lower()})"

    def lines(self) -> str:
        """Returns the proof that memory has the lines of the subroutine, as an argument."""
        if self.call.place is None:
            return self.lines_of(self.callee.name, self.callee.needs_start, self.unknowns())
        return f"(lines_there {self.base} {self.target()} {self.listed()} part_{self.call.place})"

    def listed(self) -> str:
        """Returns the lines of the subroutine, as an argument."""
        unknowns = self.unknowns()
        return f"({self.callee.name}_lines {' '.join(unknowns)})" if unknowns else f"{self.callee.name}_lines"

    def step(self) -> str:
        """Returns the lemma of XEQ."""
        at, text = self.point.at, self.text_of_line
        named = CALL_NAMED.fullmatch(text)
        if named:
            name = self.callee.name.lower()
            return f'calls_named {self.base} {self.place} (codes "{named[1]}") at_{name} l{at}.stands finds_{name}'
        return (f"calls_local {self.base} {self.place} {int(text[4:])} distance_{at} {self.target()} backwards_{at} l{at}.stands "
                f"lead_{at}")

    def claim_of(self, register: str) -> int | None:
        """Returns the number of the claim that says what is in a register, counted from 1."""
        return next((at for at, (one, _, condition) in enumerate(self.callee.equations, 1) if one.register == register and not condition),
                    None)

    def same(self, register: str) -> str:
        """Returns the proof that a register contains what the state after the call has, as an argument."""
        at = self.claim_of(register)
        value = self.callee.equations[at - 1][1] if at else None
        return f"(got.claim_{at} ∙ {self.there(value.name)})" if value and value.op == "old" else "refl"

    @staticmethod
    def content(register: str) -> str:
        """Returns the content of a register after the subroutine."""
        return f"got.stack.{PLACES[register]}" if register in PLACES else f"(got.contents {int(register[1:])})"

    def kept(self, count: int) -> str:
        """Returns the proof that a data register contains what the state after the call has, if that is about some registers that the
        subroutine writes."""
        numbers = self.callee.written()
        if not count:
            return f"got.others {' '.join(['n', *(f'not_{number}' for number in numbers)])} ∙ content_there {self.base} n within"
        number = numbers[count - 1]
        state = self.after.state
        before = self.proof.contents(stack_part(state, len(self.point.state.written) + count - 1))
        content = self.proof.register(state.written[len(self.point.state.written) + count - 1][1])
        same = self.same(f"R{number:02}")
        return f"kept_but got.contents {before} {number} {content} n {same} (λ not_{number}. {self.kept(count - 1)})"

    def facts(self) -> str:
        """Returns what is known after the subroutine, as arguments."""
        found = []
        for fact in self.after.facts[len(self.point.facts):]:
            if fact.left:
                register = self.register_of(fact.left)
                at = self.claim_of(register)
                found += [self.content(register), *([f"got.claim_{at}"] if fact.left.args else []), *self.small(fact.left, at)]
            else:
                found.append("on")
        return " ".join(found)

    def small(self, left: Term, at: int | None) -> list[str]:
        """Returns the proof that a whole number that the subroutine leaves has at most ten digits, as an argument."""
        if not left.args or not at or self.proof.program.walk.nat(left.args[0]) is None:
            return []
        return [f"got.small_{at}" if self.callee.is_sum(at - 1) else "(omega arith)"]

    def register_of(self, left: Term) -> str:
        """Returns the register in which the subroutine has left a value."""
        name = left.name.rsplit("_", 1)[0].upper()
        return name

    def becomes(self, memory: str) -> str:
        """Returns the proof that a memory after the subroutine is that of the state after the call, as an argument."""
        proof, after = self.proof, self.after
        lefts = [fact.left for fact in after.facts[len(self.point.facts):] if fact.left]
        proof.bound = {left.name: self.content(self.register_of(left)) for left in lefts}
        stack, contents = proof.stack(after.state), proof.contents(after.state)
        same = " ".join([*(proof.register(after.state.register(name)) for name in PLACES), *(self.same(name) for name in PLACES)])
        kept = self.kept(len(self.callee.written()))
        proof.bound = {}
        return (f"(becomes {self.base} got.stack got.contents {memory} got.becomes {stack} {contents} (same_stack got.stack {same}) "
                f"(λ n within. {kept}))")

    def called(self) -> str:
        """Returns the state in which the subroutine begins, as an argument."""
        returns = f"(with_return returns (Memory l{self.point.at}.next))"
        return f"(after_line memory {self.target()} {returns} {self.proof.lift(self.point.state)})"

    def theorem(self) -> str:
        """Returns the theorem about the subroutine for the state in which it begins."""
        callee = self.callee
        names = [one for part in (callee.unknowns(), callee.of_subs()) for one in part]
        given = dict(zip(names, [*self.unknowns(), *callee.of_subs()]))
        numbers, truths = callee.parts()
        return " ".join([f"of_{callee.name.lower()}.proved {LAW_NAMES} pages {self.called()} count {self.target()}",
                         *(given[name] for name in [*numbers, *truths]), *self.values(), *self.requirements()])

    def property(self) -> str:
        """Returns what is true after the subroutine, as an argument."""
        return f"({' '.join([f'{self.callee.name}_After', self.called(), *self.values()])})"

    def text(self) -> str:
        """Returns the proof."""
        proof, after = self.proof, self.after
        goes_on = f"{after.name} {proof.names(self.point.facts)} {self.facts()} after {self.becomes('after')}"
        if after.state.lift:
            rest = f"Leaves pages {after.most} (before_line after l{self.point.at}.next false returns b) After"
            goes_on = f"subst (λ (b : Bool). {rest}) (sym got.lift) ({goes_on})"
        text = (f"call_then {self.base} {self.place} {self.most()} {after.most} {self.target()}\n    {self.property()} After\n    "
                f"({self.step()}) (omega (arith, few)) (λ left is. is.returned)\n    ({self.theorem()})\n    (λ after on got. {goes_on})")
        return self.widened(text, f"1 + {self.most()} + {after.most}", self.most().more(1).joined(after.most))

    def most(self) -> Count:
        """Returns the greatest number of lines of the subroutine, in terms of the registers before it."""
        return Count(self.callee.most.constant, tuple((many, " * ".join(self.factors(one))) for many, one in self.callee.most.parts))

    def factors(self, part: str) -> list[str]:
        """Returns the whole numbers in a part of the subroutine's number of lines, as they are before it."""
        walk = self.proof.whole_part.whole_walk()
        return [walk.number_at(name, self.point.state) for name in part.split(" * ")]

    def widened(self, text: str, lines: str, count: Count) -> str:
        """Returns the proof for the number of lines that is claimed here, from one for the number that the subroutine's theorem has."""
        point = self.point
        if str(count) == str(point.most) and not count.parts:
            return text
        known = self.proof.whole_part.known(point.facts)
        walk = self.proof.whole_part.whole_walk()
        factors = list(dict.fromkeys(name for _, one in self.callee.most.parts for name in self.factors(one)))
        bounds = "".join(f"let bounded_{at} : {name} ≤ {walk.bound(name, point.facts)} = omega {known} in\n    "
                         for at, name in enumerate(factors))
        facts = ["arith"]
        for _, one in self.callee.most.parts:
            own = [f"bounded_{factors.index(name)}" for name in self.factors(one)]
            found = own[0]
            for more in own[1:]:
                found = f"(mul-le-mul {found} {more})"
            facts.append(found)
        shown = f"({', '.join(facts)})" if len(facts) > 1 else "arith"
        return f"{bounds}more_lines_suffice pages ({lines}) {point.most} _ After (omega {shown})\n    ({text})"


class JumpProof(CallProof):
    """Writes the proof of the statement of GTO with a name: the program ends as the one to which it leads."""

    def called(self) -> str:
        """Returns the state in which the other program begins, as an argument."""
        return f"(after_line memory {self.target()} returns {self.proof.lift(self.point.state)})"

    def room(self) -> str:
        """Returns the proof that there is room for the return addresses of the other program's calls, as an argument."""
        return "(omega (arith, few))"

    def step(self) -> str:
        """Returns the lemma of GTO."""
        at, name = self.point.at, self.callee.name.lower()
        return f'goes_to_named {self.base} {self.place} (codes "{self.callee.label}") at_{name} l{at}.stands finds_{name}'

    def text(self) -> str:
        """Returns the proof."""
        lifted = " got.lift" if self.proof.program.walk.leaves_lift() else ""
        ends = (f"{self.after.name} {self.proof.names(self.point.facts)} {self.facts()} left got.returned "
                f"{self.becomes('left.machine.memory')}{lifted}")
        text = (f"go_then {self.base} {self.place} {self.most()} {self.target()}\n    {self.property()} After\n    ({self.step()})\n    "
                f"({self.theorem()})\n    (λ left got. {ends})")
        return self.widened(text, f"1 + {self.most()}", self.most().more(1))
