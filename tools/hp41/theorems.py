"""The proof of a theorem about a function: a module for each state that the function reaches, with what is known there, and the run
from it."""
from __future__ import annotations

from typing import Any, Iterable

from .banksteps import left_by
from .claimproofs import omega
from .codes import Code, Loop, Result, known_at_start
from .loopproofs import LoopProof
from .needed import IMPORT, needed, words_in
from .reasons import Reasons
from .statements import CRATE, IMPORTS, PROJECT_IMPORTS, RETURNS, UNFOLDING, done_name, pages_of, requirements, sum_text
from .symbols import REGISTERS, Fact, Form, Node, State, Way, argument, form_text, keys_in, stack


class Proof:
    """The proof of one function. `rows` has its lines, each with the source line and the claim that it is about, `reasons` why each of
    them may fail, and `uses` the functions whose theorems it cites. `loop` is the loop whose rounds are being written, and `after` what is
    true after the run that is being written."""

    def __init__(self, code: Code, result: Result) -> None:
        """Begins without lines."""
        self.code, self.result, self.uses = code, result, result.calls
        self.rows: list[tuple[str, int, str]] = []
        self.reasons: list[str] = []
        self.why, self.because = "", Reasons(code, result)
        self.words = ("Takes", "takes_step", "takes_none") if result.is_exact else ("Reaches", "by_step", "at_end")
        self.line, self.claim, self.after = result.contract.line, "", "After"
        self.loop: Loop | None = None
        self.loops = LoopProof(self)

    def put(self, depth: int, text: str) -> None:
        """Adds a line."""
        self.rows.append((f"{'  ' * depth}{text}", self.line, self.claim))
        self.reasons.append(self.why)

    def about(self, line: int, claim: str = "", why: str = "") -> None:
        """Notes the source line and the claim that the next lines are about, and why they may fail."""
        self.line, self.claim, self.why = line, claim, why

    def text(self) -> str:
        """Returns the proof as the text of a file."""
        result, label = self.result, self.result.label
        for row in [f"-- The proof of {label}.", *IMPORTS.splitlines(), *(PROJECT_IMPORTS if self.code.is_project else "").splitlines(),
                    words_import(self.code),
                    *(f"use Rattle.{CRATE}.specs.Of_{name}.{{{done_name(name)}, {name}_Returns}}" for name in [label, *result.calls]),
                    *(f"use Rattle.{CRATE}.proofs.Of_{name}.{{proved as theorem_{name}}}" for name in result.calls), ""]:
            self.put(0, row)
        binders = ["(s : Nut) (r0 r1 r2 r3 : ℕ)", *(f"({name} : {text})" for name, text in pages_of(self.code, result))]
        binders += [f"(is_memory : HasMemory {REGISTERS} s.ram)"] if result.uses_memory else []
        binders += ["(may_return : is_closed r0 ≡ false)"]
        binders += [f"({name} : {text})" for name, text in requirements(result) if name.startswith("required")]
        self.put(0, "module _ " + " ".join(binders) + " where")
        self.put(1, "abbrev After : Nut → Type 0")
        self.put(1, f"After = {done_name(label)} s r0 r1 r2 r3")
        self.node(result.root, 1)
        self.last(result)
        words = words_in(row for row, _, _ in self.rows)
        kept = [(text, line, claim, why) for (row, line, claim), why in zip(self.rows, self.reasons)
                for text in (needed(row, words) if row.startswith(IMPORT) else [row])]
        self.rows, self.reasons = [(text, line, claim) for text, line, claim, _ in kept], [why for _, _, _, why in kept]
        return "".join(f"{row}\n" for row, _, _ in self.rows)

    def last(self, result: Result) -> None:
        """Adds the theorem."""
        label, known, root = result.label, known_at_start(result.contract), result.root.state
        self.line = result.contract.line
        self.put(0, "")
        self.put(0, f"pub proved : {label}_Returns")
        needs = [name for name, _ in requirements(result)]
        given = [name for name in needs if name.startswith("required")]
        memory = " is_memory" if result.uses_memory else ""
        has = " ".join(name for name, _ in pages_of(self.code, result))
        self.put(0, f"proved s r0 r1 r2 r3 whole next {has}{memory} stack may_return {' '.join(needs)} =")
        self.put(2, f"let here : {root.text()} ≡ s = {here(known)} in")
        went = (f"go_0 s r0 r1 r2 r3 {has}{memory} may_return {' '.join(given)} (subst IsWhole (sym here) whole)")
        count = sum_text(result.bound, "s")
        if not result.is_exact and not result.is_budgeted:
            went = f"more_suffice {result.steps} ({count}) {root.text()} ({done_name(label)} s r0 r1 r2 r3) (omega arith) ({went})"
        self.put(2, f"subst (λ t. {self.words[0]} ({count}) t ({done_name(label)} s r0 r1 r2 r3)) here ({went})")

    # The nodes.

    def node(self, node: Node, depth: int) -> None:
        """Adds the module of a node: what is known there, the nodes after it, and the run from it."""
        self.about(node.line)
        binders = [f"({name} : {kind})" for name, kind in node.variables]
        self.put(depth, f"module _ {' '.join([*binders, f'({node.whole} : IsWhole {node.state.text()})'])} where")
        for name, kind, term in node.abbreviations:
            self.put(depth + 1, f"abbrev {name} : {kind}")
            self.put(depth + 1, f"{name} = {term}")
        for name, kind, term in [*node.definitions, *map(self.memory, node.memories)]:
            self.put(depth + 1, f"{name} : {kind}")
            self.put(depth + 1, f"{name} = {term}")
        self.facts(node.facts, depth + 1)
        if node is self.result.root and self.code.is_project:
            for name, kind, term in self.result.banks.definitions():
                self.put(depth + 1, f"{name} : {kind}")
                self.put(depth + 1, f"{name} = {term}")
        if node is self.result.root and self.result.loops:
            self.loops.write(depth + 1)
            self.about(node.line)
        getattr(self, f"write_{node.form[0]}")(node, depth + 1, *node.form[1:])

    def memory(self, name: str) -> tuple[str, str, str]:
        """Returns the definition that the registers of memory exist after a write."""
        ram = self.result.knowledge.rams[name]
        before = self.result.knowledge.rams[ram.before]
        proof = f"memory_kept {REGISTERS} {before.name} {ram.address:#05x} {before.has} {argument(ram.register)}"
        return ram.has, f"HasMemory {REGISTERS} {name}", proof

    def facts(self, facts: Iterable[Fact], depth: int) -> None:
        """Adds facts that are needed."""
        for one in facts:
            if one.is_needed and one.statement:
                self.put(depth, f"{one.name} : {one.statement}")
                self.put(depth, f"{one.name} = {one.proof}")

    def is_open(self) -> bool:
        """Returns whether the number of steps depends on the state: outside of the rounds of a loop, if it is claimed so."""
        return self.result.is_budgeted and not self.loop

    def count(self, node: Node) -> str:
        """Returns the most steps from a node as a term."""
        return f"({form_text(node.budget)})" if self.is_open() else str(node.steps)

    def head(self, node: Node, depth: int, name: str = "") -> None:
        """Adds the type of the run from a node."""
        self.about(node.line)
        self.put(depth, f"{name or node.go} : {self.words[0]} {self.count(node)} {node.state.text()} {self.after}")
        self.put(depth, UNFOLDING)

    def with_steps(self, node: Node, steps: str, went: str, enough: str = "omega arith") -> str:
        """Returns a run of a number of steps as one of those that are left in its first state."""
        state = node.state.text()
        if not self.result.is_exact:
            return f"more_suffice {steps} {self.count(node)} _ {self.after} ({enough}) ({went})"
        return f"let same : {steps} ≡ {self.count(node)} = {enough} in subst (λ n. Takes n {state} {self.after}) same ({went})"

    def stepped(self, node: Node, after: Node, step: str, rest: str) -> str:
        """Returns the run from a node by a step and the run after it."""
        went = f"{self.words[1]} {self.count(after)} _ _ {self.after} {step} ({rest})"
        if self.is_open() or not self.result.is_exact and after.steps + 1 < node.steps:
            return self.with_steps(node, f"(suc {self.count(after)})" if self.result.is_exact else f"(1 + {self.count(after)})", went)
        return went

    def write_step(self, node: Node, depth: int, lemma: str) -> None:
        """Adds a step."""
        after = node.nexts[0]
        self.node(after, depth)
        self.head(node, depth)
        selected = lemma.replace("SELECTED", f"({node.proofs[0]})") if node.selects else lemma
        self.put(depth, f"{node.go} =")
        self.put(depth + 2, f"let step : StepsTo {node.state.text()} {after.state.text()} = {selected} in")
        self.put(depth + 2, self.stepped(node, after, "step", f"{after.go} step.whole"))

    def write_found(self, node: Node, depth: int, lemma: str) -> None:
        """Adds a step after which a register is known by a rule."""
        after = node.nexts[0]
        self.node(after, depth)
        self.head(node, depth)
        self.put(depth, f"{node.go} =")
        self.put(depth + 2, f"let found = {lemma} in")
        self.put(depth + 2, self.stepped(node, after, "found.3", f"{after.go} found.0 found.1 found.2 found.3.whole"))

    def write_end(self, node: Node, depth: int, lemma: str, name: str = "", end: Node | None = None) -> None:
        """Adds the return of the function, with the claims."""
        last = end or node.end
        assert last
        self.head(node, depth, name)
        self.put(depth, f"{name or node.go} =")
        self.put(depth + 2, f"let step = {lemma} in")
        is_more = not self.result.is_exact and (node.steps > 1 or self.is_open())
        begin = f"more_suffice 1 {self.count(node)} _ {self.after} (omega arith) (" if is_more else "("
        inner = 0 if not self.loop or self.result.is_exact else 2 if self.loop.after else 1
        self.put(depth + 2, f"{begin}{self.words[1]} 0 _ _ {self.after} step ({self.words[2]} _ {self.after} ({'inl (' * inner}record {{")
        self.put(depth + 3, "whole = step.whole;")
        for at, address in enumerate(self.result.returns):
            if address.startswith("return_"):
                self.put(depth + 3, f"{address} = {last.state.returns[at]};")
        self.put(depth + 3, "only = refl;")
        if "ram" in self.result.changed:
            self.put(depth + 3, f"memory = {self.result.knowledge.rams[last.state.of('ram')].has};")
        for at, (claim, proof) in enumerate(zip(self.result.contract.ensures, last.proofs), 1):
            self.about(claim.line, claim.text, self.because.at_end(node))
            self.put(depth + 3, f"claim_{at} = {proof};")
        self.about(node.line)
        self.put(depth + 2, f"}}{')' * inner})))")

    def write_again(self, node: Node, depth: int, loop: Loop) -> None:
        """Adds the end of a round after which there is another one."""
        self.loops.again(node, depth, loop)

    def write_enter(self, node: Node, depth: int, loop: Loop) -> None:
        """Adds the way into a loop."""
        self.loops.enter(node, depth, loop)

    def write_split(self, node: Node, depth: int, carry: str, forms: list[Way]) -> None:
        """Adds a jump that is taken on one way and not on the other."""
        names = {}
        for value, way in zip((True, False), forms):
            proof = f"is_{node.number}_{int(value)}"
            self.because.ways.append((node.line, way.is_taken))
            self.put(depth, f"module _ ({proof} : {carry} ≡ {'true' if value else 'false'}) where")
            self.facts(way.facts, depth + 1)
            names[value] = f"way_{node.number}_{int(value)}"
            self.write_way(node, way, depth + 1, names[value])
            self.because.ways.pop()
        self.head(node, depth)
        proofs = [f"{'inl' if value else 'inr'} is ↦ {names[value]} is" for value in (True, False)]
        self.put(depth, f"{node.go} = elim (either {argument(carry)}) [")
        for proof in proofs:
            self.put(depth + 2, f"| {proof}")
        self.put(depth, "]")

    def write_way(self, node: Node, way: Way, depth: int, name: str) -> None:
        """Adds what follows a jump that is taken, or not taken."""
        after = way.node
        if way.refuted is not None:
            self.head(node, depth, name)
            self.put(depth, f"{name} = absurd ({omega(way.refuted)})")
        elif after is None:
            self.write_end(node, depth, way.lemma, name, way.end)
        else:
            self.node(after, depth)
            self.head(node, depth, name)
            self.put(depth, f"{name} =")
            self.put(depth + 2, f"let step : StepsTo {node.state.text()} {after.state.text()} = {way.lemma} in")
            self.put(depth + 2, self.stepped(node, after, "step", f"{after.go} step.whole"))

    def write_call(self, node: Node, depth: int, callee: Result, lemma: str, inner: State, *more: Any) -> None:
        """Adds the call of a function that has a theorem."""
        done, t, steps, pages = more
        after = node.nexts[0]
        self.node(after, depth)
        self.head(node, depth)
        is_exact, stacks = self.result.is_exact, " ".join(inner.returns)
        between = f"({done_name(callee.label)} {inner.text()} {stacks})"
        theorem, count = self.applied(node, callee, inner, steps, between)
        self.about(node.line, "", self.because.at_call(node))
        self.put(depth, f"{node.go} =")
        self.put(depth + 2, f"let step : StepsTo {node.state.text()} {inner.text()} = {lemma} in")
        join = "takes_in_turn" if is_exact else "in_turn"
        total = f"(suc {count})" if is_exact else f"(1 + {count})"
        went = (f"{join} {total} {self.count(after)} _ {between} {self.after} ({self.words[1]} {count} _ _ {between} step ({theorem})) "
                f"(λ {t} {done}. subst (λ v. {self.words[0]} {self.count(after)} v {self.after}) (sym {left_by(done, after, pages)}) "
                f"({after.go} {t} {done} (subst IsWhole {left_by(done, after, pages)} {done}.whole)))")
        self.put(depth + 2, self.with_steps(node, f"({total} + {self.count(after)})", went, node.proofs[-1]))
        self.about(node.line)

    def applied(self, node: Node, callee: Result, inner: State, steps: Form, between: str) -> tuple[str, str]:
        """Returns the run of a function that is called by its theorem, and the number of steps that are counted for it."""
        needs = " ".join(f"({proof})" for proof in node.proofs[:-1])
        known = " ".join("refl" for _ in known_at_start(callee.contract))
        memory = f" {self.result.knowledge.rams[inner.of('ram')].has}" if callee.uses_memory else ""
        has = self.result.banks.needs(inner, callee.banks) if self.code.is_project else "has"
        theorem = f"theorem_{callee.label} {inner.text()} {' '.join(inner.returns)} step.whole refl {has}{memory} refl refl {known} {needs}"
        count = f"({form_text(steps)})" if keys_in(steps) else str(steps.get(None, 0))
        if callee.is_exact and not self.result.is_exact:
            theorem = f"exactly {count} _ {between} ({theorem})"
        if keys_in(steps) and not keys_in(node.spent):
            most = str(node.cost - 1)
            return f"more_suffice {count} {most} _ {between} ({node.proofs[-1]}) ({theorem})", most
        return theorem, count


def words_import(code: Code) -> str:
    """Returns the import of the words of the code."""
    if not code.is_project:
        return f"use Rattle.{CRATE}.specs.Words.{{module_words}}"
    names = ", ".join(["HasModule", *(f"words_{bank.name}" for bank in code.banks)])
    return f"use Rattle.{CRATE}.specs.Words.{{{names}}}\nuse Rattle.{CRATE}.proofs.Kept.{{module_kept}}"


def here(known: dict[str, str]) -> str:
    """Returns the proof that the state with the known components is the state in which the function begins."""
    start = {"pc": "next", "returns": "stack", **{name: f"is_{name}" for name in known}}
    parts: list[str] = []
    names = list(start)
    for at, name in enumerate(names):
        rest = [f"{other} = {value_at(other, known)}" for other in names[at + 1:]]
        inside = "; ".join([f"{name} = v", *rest])
        parts.append(f"ap (λ v. record s {{ processor = record s.processor {{ {inside} }} }}) (sym {start[name]})")
    return " ∙ ".join(parts)


def value_at(name: str, known: dict[str, str]) -> str:
    """Returns the known value of a component."""
    return stack(RETURNS) if name == "returns" else known[name]


