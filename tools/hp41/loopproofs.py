"""The part of a proof that is about loops: what is true at their labels, their rounds, and what follows them."""
from __future__ import annotations

from typing import TYPE_CHECKING

from .codes import Loop, measure_of
from .statements import claim_text
from .symbols import OUTSIDE, REGISTERS, Form, Node, State, equals_text, form_text, record, signed_parts, stack, start_of, state_of

if TYPE_CHECKING:
    from .theorems import Proof


class LoopProof:
    """Writes the part of a proof that is about loops."""

    def __init__(self, proof: Proof) -> None:
        """Writes about the loops of the function that a proof is about."""
        self.proof, self.result = proof, proof.result
        self.loops, self.is_exact = proof.result.loops, proof.result.is_exact

    def write(self, depth: int) -> None:
        """Adds what is true at the labels of all loops, and then the loops, the last one first."""
        for loop in self.loops:
            self.invariant(loop, depth)
        for loop in self.loops:
            self.afterwards(loop, depth)
        for loop in reversed(self.loops):
            self.rounds(loop, depth)
            self.whole_loop(loop, depth)

    def after(self, loop: Loop) -> str:
        """Returns the name of what is true after a loop."""
        return f"After_{loop.label}" if loop.after else "After"

    def rest(self, loop: Loop) -> str:
        """Returns the number of steps after a loop as a term."""
        return f"({form_text(loop.after.budget)})" if loop.after else ""

    def need(self, loop: Loop, left: str) -> str:
        """Returns the number of steps from the label of a loop to the end of the function as a term."""
        more = f" + {self.rest(loop)}" if loop.after else ""
        return f"{loop.steps} * {left} + {loop.last_steps}{more}" if self.is_exact else f"{loop.steps} * ({left} + 1){more}"

    def suffices(self, loop: Loop, left: str, budget: str) -> str:
        """Returns the statement that a number of steps suffices from the label of a loop."""
        return f"{self.need(loop, left)} {'≡' if self.is_exact else '≤'} {budget}"

    def invariant(self, loop: Loop, depth: int) -> None:
        """Adds what is true at the label of a loop."""
        put, root = self.proof.put, loop.roots[0]
        self.proof.about(loop.contract.line)
        parts = {**root.state.terms, **{name: start_of(name, "t") for name in sorted(loop.names)}}
        outside = {name: parts.pop(name) for name in OUTSIDE if name in parts}
        returns = [f"return_{at}" if at in loop.lost else one for at, one in enumerate(root.state.returns)]
        parts |= {"pc": f"{loop.address:#06x}", "returns": stack(returns)}
        put(depth, f"record At_{loop.label} (left : ℕ) (t : Nut) : Type 0 where")
        put(depth + 1, "whole : IsWhole t")
        for at in sorted(loop.lost):
            put(depth + 1, f"return_{at} : ℕ")
        put(depth + 1, f"is : t ≡ {record('s', {'processor': record('s.processor', parts), **outside})}")
        if "ram" in loop.names:
            put(depth + 1, f"memory : HasMemory {REGISTERS} t.ram")
        put(depth + 1, f"counted : {equals_text('left', self.measure(loop, state_of('t')))}")
        for at, claim in enumerate(loop.contract.invariant, 1):
            put(depth + 1, f"invariant_{at} : {claim_text(claim, 't')}")

    def measure(self, loop: Loop, state: State) -> Form:
        """Returns the number that each round of a loop makes smaller, in a state."""
        return measure_of(loop, state, self.result.root.state)

    def afterwards(self, loop: Loop, depth: int) -> None:
        """Adds what is true after a loop that another one may follow."""
        if not loop.after:
            return
        entered = (f"((left : ℕ) × At_{loop.after.label} left t × "
                   f"({self.suffices(loop.after, 'left', f'({form_text(loop.after.budget)})')}))")
        self.proof.put(depth, f"abbrev After_{loop.label} : Nut → Type 0")
        self.proof.put(depth, f"After_{loop.label} t = {entered if self.is_exact else f'After t ⊎ {entered}'}")

    def rounds(self, loop: Loop, depth: int) -> None:
        """Adds the rounds of a loop."""
        proof, label, root = self.proof, loop.label, loop.roots[0]
        proof.about(loop.contract.line)
        proof.loop = loop
        if self.is_exact:
            proof.after = f"(At_{label} {root.variables[0][0]})"
            proof.node(root, depth)
            proof.after = self.after(loop)
            proof.node(loop.roots[1], depth)
        else:
            proof.put(depth, f"abbrev Round_{label} : ℕ → Nut → Type 0")
            proof.put(depth, f"Round_{label} left = AfterRound At_{label} {self.after(loop)} left")
            proof.after = f"(Round_{label} {root.variables[0][0]})"
            proof.node(root, depth)
            proof.put(depth, f"round_{label} : (left : ℕ) (t : Nut) → At_{label} left t → Reaches {loop.steps} t (Round_{label} left)")
            proof.put(depth, f"round_{label} left t at = subst (λ v. Reaches {loop.steps} v (Round_{label} left)) (sym at.is) ({root.go} "
                             "left t at (subst IsWhole at.is at.whole))")
        proof.loop, proof.after = None, "After"

    def whole_loop(self, loop: Loop, depth: int) -> None:
        """Adds the run from the label of a loop to the end of the function."""
        put, label, word = self.proof.put, loop.label, self.proof.words[0]
        if loop.after:
            put(depth, f"goes_on_{label} : (t : Nut) → After_{label} t → {word} {self.rest(loop)} t After")
            on = f"loop_{loop.after.label} left t {self.rest(loop)} at enough"
            if self.is_exact:
                put(depth, f"goes_on_{label} t (left, at, enough) = {on}")
            else:
                put(depth, f"goes_on_{label} t (inl is) = more_suffice 0 {self.rest(loop)} t After (omega arith) (at_end t After is)")
                put(depth, f"goes_on_{label} t (inr (left, at, enough)) = {on}")
        put(depth, f"loop_{label} : (left : ℕ) (t : Nut) (budget : ℕ) → At_{label} left t → {self.suffices(loop, 'left', 'budget')} "
                   f"→ {word} budget t After")
        put(depth, f"loop_{label} left t budget at enough =")
        if self.is_exact:
            put(depth + 2, "subst (λ n. Takes n t After) enough")
            run, count, join = self.exact_run(loop), f"({loop.steps} * left + {loop.last_steps})", "takes_in_turn"
        else:
            put(depth + 2, f"more_suffice ({self.need(loop, 'left')}) budget t After enough")
            run = f"(loops_end At_{label} {self.after(loop)} {loop.steps} round_{label} left t at)"
            count, join = f"({loop.steps} * (left + 1))", "in_turn"
        put(depth + 2, f"({join} {count} {self.rest(loop)} t After_{label} After {run} goes_on_{label})" if loop.after else run)

    def exact_run(self, loop: Loop) -> str:
        """Returns the run of a loop whose rounds take an exact number of steps."""
        label, after = loop.label, self.after(loop)
        more, last = (f"subst (λ v. Takes {count} v {then}) (sym at.is) ({root.go} {args} at (subst IsWhole at.is at.whole))"
                      for root, count, then, args in zip(loop.roots, (loop.steps, loop.last_steps), (f"(At_{label} left)", after),
                                                         ("left t", "t")))
        return f"(counts_down At_{label} {after} {loop.steps} {loop.last_steps} (λ left t at. {more}) (λ t at. {last}) left t at)"

    def at_label(self, loop: Loop, node: Node, depth: int, counted: str, why: str = "") -> None:
        """Adds the proof that the invariant is true in a state at the label. `why` says why the count may be another one."""
        put, about, because = self.proof.put, self.proof.about, self.proof.because
        memory = [f"memory = {self.result.knowledge.rams[node.state.of('ram')].has};"] if "ram" in loop.names else []
        returns = [f"return_{place} = {node.state.returns[place]};" for place in sorted(loop.lost)]
        for text in (f"whole = {node.whole};", *returns, "is = refl;", *memory):
            put(depth, text)
        about(*self.counted(loop), why or because.negative(loop, node))
        put(depth, f"counted = {counted};")
        for at, (claim, proof) in enumerate(zip(loop.contract.invariant, node.proofs), 1):
            about(claim.line, claim.text, because.at_loop(loop, node))
            put(depth, f"invariant_{at} = {proof};")
        about(node.line)

    @staticmethod
    def counted(loop: Loop) -> tuple[int, str]:
        """Returns the source line and the text of the number that each round makes smaller."""
        measure = loop.contract.measure
        return (measure.line, measure.text) if measure else (loop.contract.line, "decreases")

    def is_natural(self, loop: Loop, node: Node) -> str:
        """Returns the proof that the number that each round makes smaller is what it is said to be, which is not negative."""
        return node.proofs[-2] if signed_parts(self.measure(loop, node.state))[1] else "refl"

    def again(self, node: Node, depth: int, loop: Loop) -> None:
        """Adds the end of a round after which there is another one."""
        proof, because = self.proof, self.proof.because
        proof.head(node, depth)
        if self.is_exact:
            proof.put(depth, f"{node.go} = takes_none _ {proof.after} (record {{")
            self.at_label(loop, node, depth + 2, node.proofs[-1], because.falls_by_one(loop, node))
            proof.put(depth, "})")
            return
        proof.about(*self.counted(loop), because.falls(loop, node))
        proof.put(depth, f"{node.go} = at_end _ {proof.after} (inr ({form_text(self.measure(loop, node.state))}, {node.proofs[-1]}, record {{")
        self.at_label(loop, node, depth + 2, self.is_natural(loop, node))
        proof.put(depth, "}))")

    def enter(self, node: Node, depth: int, loop: Loop) -> None:
        """Adds the way into a loop: from the beginning of the function, or from the rounds of another loop."""
        proof, claimed = self.proof, self.result.contract.steps
        measure = form_text(self.measure(loop, node.state))
        proof.head(node, depth)
        if proof.loop:
            begin, end = ("", "") if self.is_exact else ("(inl (inr ", "))")
            word = "takes_none" if self.is_exact else "at_end"
            proof.put(depth, f"{node.go} = {word} _ {proof.after} {begin}({measure}, record {{")
        else:
            proof.put(depth, f"{node.go} = loop_{loop.label} ({measure}) {node.state.text()} {proof.count(node)} (record {{")
        self.at_label(loop, node, depth + 2, self.is_natural(loop, node))
        if claimed:
            proof.about(claimed.line, claimed.text, proof.because.suffices(loop, node))
        proof.put(depth, f"}}, {node.proofs[-1]}){end}" if proof.loop else f"}}) ({node.proofs[-1]})")
        proof.about(node.line)
