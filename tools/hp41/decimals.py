"""Proofs that digits of registers are 0 to 9, so that their decimal numbers are added and subtracted as whole numbers."""
from __future__ import annotations

from typing import TYPE_CHECKING, Callable

from .symbols import Span, Value, argument

if TYPE_CHECKING:
    from .knowledge import Knowledge

MOST = 9


class Decimals:
    """What is known of decimal digits: what was declared, and what follows for the registers that words have made."""

    def __init__(self, knowledge: Knowledge) -> None:
        """Begins without decimal digits."""
        self.knowledge = knowledge
        self.declared: dict[str, list[tuple[int, int, str]]] = {}
        self.found: dict[tuple[str, int, int], str | None] = {}

    def declare(self, span: Span, proof: str) -> None:
        """Adds the proof that some digits are decimal."""
        self.declared.setdefault(span.name, []).append((span.lo, span.hi, proof))

    def proof(self, name: str, lo: int, hi: int) -> str | None:
        """Returns the proof that digits of a register are decimal, in parentheses; None if it is not known."""
        key = name, lo, hi
        if key not in self.found:
            self.found[key] = None
            found = self.search(name, lo, hi)
            self.found[key] = found and argument(found)
        return self.found[key]

    def search(self, name: str, lo: int, hi: int) -> str | None:
        """Returns such a proof from what was declared, from the word that made the register, or from those of parts."""
        if name == "zeros":
            return f"zeros_decimal {lo} {hi}"
        for first, last, proof in self.declared.get(name, []):
            if first <= lo and hi <= last:
                return self.part(name, (first, last), (lo, hi), proof)
        value = self.knowledge.value(name)
        if value.kind == "same":
            source = self.proof(value.x, lo, hi)
            return source and f"subst (λ register. IsDecimal register {lo} {hi}) (sym ({value.rule})) {source}"
        edges = {value.lo, value.hi + 1}
        edges |= {edge for first, last, _ in self.declared.get(name, []) for edge in (first, last + 1)}
        middle = next((edge for edge in sorted(edges) if lo < edge <= hi), None)
        if middle is None and lo < hi and value.kind in ("right", "left", "rotated", "word", "and", "or"):
            middle = lo + 1
        if middle is not None:
            low, high = self.proof(name, lo, middle - 1), self.proof(name, middle, hi)
            return f"decimal_parts {argument(name)} {lo} {middle - 1} {hi} {low} {high}" if low and high else None
        way: Callable[[Value, int, int], str | None] | None = getattr(self, f"of_{value.kind}", None)
        if value.kind in ("start", "call"):
            return None
        if hi < value.lo or lo > value.hi:
            return self.kept(value, lo, hi)
        return way(value, lo, hi) if way else self.digit(value, lo)

    @staticmethod
    def part(name: str, whole: tuple[int, int], wanted: tuple[int, int], proof: str) -> str:
        """Returns the proof for a part of digits."""
        if whole == wanted:
            return proof
        return f"decimal_part {argument(name)} {whole[0]} {whole[1]} {wanted[0]} {wanted[1]} (omega arith) (omega arith) {argument(proof)}"

    def kept(self, value: Value, lo: int, hi: int) -> str | None:
        """Returns the proof for digits that a word keeps."""
        before = self.proof(value.into, lo, hi)
        way = "above place (omega (arith, from))" if lo > value.hi else "below place (omega (arith, to))"
        return before and (f"decimal_copied {argument(value.into)} {argument(value.name)} {lo} {hi} "
                           f"(λ place from to. {self.knowledge.keeps(value)}.{way}) {before}")

    def of_sum(self, value: Value, lo: int, hi: int) -> str | None:
        """Returns the proof for digits of a sum or a difference in base 10."""
        operands = [self.proof(name, value.lo, value.hi) for name in (value.x, value.y)]
        if value.base != 10 or None in operands:
            return None
        registers = " ".join(map(argument, (value.into, value.x, value.y)))
        whole = (f"decimal_{value.kind} {value.lo} {value.hi} {registers} {value.name} {value.carry_in} {value.carry} {operands[0]} "
                 f"{operands[1]} {value.rule}")
        return self.part(value.name, (value.lo, value.hi), (lo, hi), whole)

    of_difference = of_sum

    def of_copy(self, value: Value, lo: int, hi: int) -> str | None:
        """Returns the proof for digits that are copied."""
        source = self.proof(value.x, lo, hi)
        into, x = argument(value.into), argument(value.x)
        return source and (f"decimal_copied {x} {argument(value.name)} {lo} {hi} (λ place from to. copy_digit replaced {into} {x} "
                           f"{value.lo} {value.hi} {self.knowledge.size(value)} (omega arith) place (omega (arith, from)) "
                           f"(omega (arith, to))) {source}")

    def digit(self, value: Value, place: int) -> str | None:
        """Returns the proof for a digit that is a constant, or that is moved from another place."""
        know = self.knowledge
        facts = know.reach([Span(value.name, place, place)], [])
        names = "".join(f", {one.name}" for one in facts)
        digit = know.digit(value.name, place, [])
        if digit is not None and digit <= MOST:
            return f"decimal_digit {argument(value.name)} {place} (omega (arith{names}))"
        moved = {"right": place + 1, "left": place - 1, "rotated": (place + int((*value.digits, 0)[0])) % 14}.get(value.kind)
        source = self.proof(value.into, moved, moved) if moved is not None else None
        return source and (f"decimal_digit {argument(value.name)} {place} (omega (arith{names}, one_digit 16 {argument(value.into)} "
                           f"{moved}, {source} {moved} (omega arith) (omega arith)))")
