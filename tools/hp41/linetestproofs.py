"""The part of a proof about a program that is about tests, such as X<Y?."""
from __future__ import annotations

from typing import TYPE_CHECKING

from .linelemmas import TESTS
from .lineterms import PLAIN

if TYPE_CHECKING:
    from .linepoints import Point
    from .lineproofs import ProgramProof


class TestProof:
    """Writes the statements of tests."""

    def __init__(self, proof: ProgramProof) -> None:
        """Takes the proof of the program."""
        self.proof, self.program = proof, proof.program

    def both(self, point: Point) -> None:
        """Writes the statement of a test: both ways."""
        assert point.condition
        proof = self.proof
        names, by, truth = proof.names(point.facts), f"{point.name}_by", proof.truth(point.condition)
        rows = [f"{by} : {proof.given(point.facts)}(on : Bool) → {truth} ≡ on → {proof.leaves(point)}"]
        text = self.program.lines[point.at].text
        is_turned = text[1] == "#"
        for after in point.after:
            is_next = after.at == point.at + 1
            on = is_next != is_turned
            fact = self.step(point, text, "is" if not is_turned else f"turned {truth} {'true' if on else 'false'} is", is_next)
            rows.append(f"{by} {names} {'true' if on else 'false'} is memory has =\n    {proof.go_on(point, after, fact, f'{names} is')}")
        rows += ["", f"{point.name} : {proof.given(point.facts)}{proof.leaves(point)}",
                 f"{point.name} {names} memory has = {by} {names} {truth} refl memory has"]
        proof.put(point, "\n".join(rows))

    def step(self, point: Point, text: str, fact: str, is_next: bool) -> str:
        """Returns the lemma of a test that continues at the next line, or after it."""
        proof = self.proof
        condition, numbers, tells = TESTS[text]
        stack, state = proof.stack(point.state), point.state
        values = [state.x] if text[-2] == "0" else [state.y, state.x]
        known = " ".join([stack, "memory", *map(self.program.amount, values), *map(proof.holds, values)]) if numbers else ""
        are = f"({numbers} {known})" if numbers else "refl"
        tell = f"({tells} {known} ∙ {fact})" if tells else f"({fact})"
        lemma = "tests_true" if is_next else "tests_false"
        skipped = "" if is_next else f"_ l{point.at + 1}.next l{point.at + 1}.stands "
        return (f"{lemma} {proof.common(point)} {proof.lift(state)} functions.{PLAIN[text]} ({condition}) refl l{point.at}.stands {are} "
                f"{skipped}{tell}")
