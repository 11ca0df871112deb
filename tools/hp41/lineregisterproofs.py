"""The part of a proof about a program that is about lines with a data register: RCL, STO, X<>, and arithmetic such as ST+."""
from __future__ import annotations

from typing import TYPE_CHECKING

from .linelemmas import TWO
from .lineregisters import FUNCTIONS, SHORT, register_line

if TYPE_CHECKING:
    from .linepoints import Point
    from .lineproofs import ProgramProof


class RegisterProof:
    """Writes the lemmas of a line with a data register."""

    def __init__(self, proof: ProgramProof, point: Point) -> None:
        """Takes the line."""
        line = register_line(proof.program.lines[point.at].text)
        assert line and point.register is not None
        self.proof, self.point, self.line, self.number = proof, point, line, point.register
        self.stands, self.lift = f"l{point.at}.stands", proof.lift(point.state)

    def inside(self, number: int) -> str:
        """Returns a data register and the proof that it exists, as arguments."""
        return f"{number} (omega (arith, inside))"

    def place(self) -> str:
        """Returns the first arguments of the lemmas: the data register, the operand, and the proof that the operand means it."""
        common = self.proof.common(self.point)
        means = f"(direct_there {common} {self.number} (omega arith) (omega (arith, inside)))"
        if self.line.is_indirect:
            means = self.indirect(common)
        return f"{common} {self.inside(self.number)} {self.line.operand} {means}"

    def indirect(self, common: str) -> str:
        """Returns the proof that the operand with IND means the data register, as an argument."""
        value, walk = self.point.state.register(f"R{self.line.number:02}"), self.proof.program.walk
        parts, known = self.proof.counters.parts(value), self.proof.whole_part.known(self.point.facts)
        index = f"index_counter {' '.join(parts)}" if parts else f"index_whole {walk.nat(value)}"
        few = f"(omega {known}) " if parts else ""
        return (f"(indirect_there {common} {self.line.number} {self.number} {self.proof.program.amount(value)} (omega arith) "
                f"(omega (arith, inside)) (omega (arith, inside)) {self.proof.holds(value)} ({index} {self.number} {few}(omega {known})))")

    def step(self) -> str:
        """Returns the lemma of a line that continues."""
        common, function = self.proof.common(self.point), self.line.function
        if self.point.result:
            decimal = self.proof.decimal(self.point.result)
            register = f"(register_of registers {decimal})"
            return f"computes_by {self.operation()} {decimal} {register}.0 {register}.1 is_{decimal}"
        if self.line.is_short:
            return {"RCL": f"recalls {common} {self.inside(self.number)} {self.stands} {self.lift}",
                    "STO": f"stores {common} {self.lift} {self.inside(self.number)} {self.stands}"}[function]
        if function == "RCL":
            return f"recalls_by {self.place()} refl {self.stands} {self.lift}"
        return f"{'stores_by' if function in SHORT else 'exchanges_by'} {self.place()} {self.lift} refl {self.stands}"

    def operation(self) -> str:
        """Returns the arguments of the lemmas about arithmetic in a register, up to the proofs that it works with numbers."""
        result, program = self.point.result, self.proof.program
        assert result
        two = TWO[result.op][0].split()[1]
        return (f"{self.place()} {self.lift} parameters.{FUNCTIONS[self.line.function]} {two} "
                f"{' '.join(map(program.amount, result.args))} refl refl refl {self.stands} {' '.join(map(self.proof.holds, result.args))}")

    def exact(self, nearest: str) -> str:
        """Returns the lemma of a line whose result is a whole number, which has the name `found`."""
        return f"computes_by {self.operation()} found.ten found.register found.of_ten ({nearest})"

    def failing(self, error: str) -> str:
        """Returns the lemma of a line that stops the program with an error."""
        if error == "DATA ERROR":
            return f"data_error_by {self.operation()} clear_25 is"
        return f"out_of_range_by {self.operation()} clear_25 clear_24 is"
