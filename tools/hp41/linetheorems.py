"""The theorem about a program: its lines, its requirements, and what its claims say of the state after it."""
from __future__ import annotations

import re
from dataclasses import replace
from typing import Callable

from .claims import Wrong
from .lineclaims import Condition, Equation, LineContract, LoopContract, Term, old, plain
from .linear import contradicts
from .linebounds import rows_of
from .linecounts import Count
from .lineregisters import needs_counters, registers_in
from .linepoints import PLACES, RETURNS, Call, NeedsWholes, Point
from .linesteps import EXACT, Walk, asked, written_in
from .lineterms import LOCAL, NUMBER, TRUTH, ProgramLine, characters_of, kinds_of, term_of, unknowns_of, values_of
from .linewholes import SIGNS, WholeWalk
from .statements import CRATE

FAULTS = {"OUT OF RANGE": "OutOfRange", "DATA ERROR": "DataError"}

USED = """use Rattle.std.specs.Prelude.{◌≡◌, ℕ, ◌+◌, ◌-◌, ◌*◌, ◌/◌, ◌%◌, ◌^◌, ◌<◌, ◌≤◌, ◌⊎◌, Bool, true, false, List, [], ◌∷◌, Ok}
use Rattle.std.specs.Prelude.{codes, bytes_eq, length}
use Rattle.std.specs.Prelude.{ℤ, pos, neg_ℤ, ◌+ℤ◌, ◌-ℤ◌, ◌*ℤ◌, int_le, int_lt, unsigned_abs}
use Rattle.h41_codes.specs.declared.characters.Character.TheVariants as characters
use Rattle.h41_codes.specs.declared.functions.Branch.TheVariants.{Execute}
use Rattle.h41_codes.specs.declared.functions.Function.TheVariants as functions
use Rattle.h41_codes.specs.declared.functions.NameFunction.TheVariants.{ExecuteName, GoToName}
use Rattle.h41_codes.specs.declared.functions.ParameterFunction.TheVariants as parameters
use Rattle.h41_codes.specs.declared.functions.RegisterFunction.TheVariants.{RecallRegister, StoreRegister}
use Rattle.h41_codes.specs.declared.line.Line.{Line}
use Rattle.h41_codes.specs.declared.line.Line.TheVariants as lines
use Rattle.h41_codes.specs.declared.line.Operand.TheVariants.{Direct, Indirect}
use Rattle.h41_decimal.specs.Holding.{Number, holding_of}
use Rattle.h41_decimal.specs.NearestDecimal.{Nearest, NearestRoot}
use Rattle.h41_decimal.specs.Operations.{NearestQuotient}
use Rattle.h41_decimal.specs.Signs.{sign_of, with_sign}
use Rattle.h41_decimal.specs.Units.{one, units}
use Rattle.h41_decimal.specs.declared.ten.Ten.{Ten}
use Rattle.h41_focal.specs.LineStep.{Left}
use Rattle.h41_numbers.specs.NumberLines.{IsNumberOf}
use Rattle.h41_pages.specs.PageMap.{PageMap}
use Rattle.h41_positions.specs.FocalState.{Machine}
use Rattle.h41_positions.specs.declared.position.Position.TheVariants.{Memory}
use Rattle.h41_ram.specs.NamedFlags.{error_ignore, range_ignore}
use Rattle.h41_ram.specs.NamedRegisters.{size_of}
use Rattle.h41_ram.specs.RegisterMap.{IsMemory, flag_of, is_sound, zeros}
use Rattle.h41_rows.specs.FunctionRows.{pi}
use Rattle.h41_rows.specs.Values.{IsRegisterOf}
use Rattle.h41_rows.specs.declared.fault.LineFault.TheVariants.{DataError, OutOfRange}
use Rattle.h41_reasoning_lines.specs.LineRuns.{HasFailed, HasReturned, Leaves}
use Rattle.h41_reasoning_lines.specs.ProgramLines.{FindsName, HasProgram, IsProgram, bytes_of_lines}
use Rattle.h41_reasoning_lines.specs.ProgramStates.{HasBecome, data_in}
use Rattle.h41_reasoning_lines.specs.Stacks.{Stack, stack_of}
"""


class Program:
    """A program with claims: its label, the lines from the label to the last one that is reached, and the paths through them. A program
    whose label is local has the name of the label and of its place."""

    def __init__(self, label: str, lines: list[ProgramLine], contract: LineContract, is_start: bool = True,
                 called: Callable[[int], Call] | None = None, loops: dict[int, LoopContract] | None = None) -> None:
        """Follows the paths. `is_start` says whether the label is the first line of a program, `called` finds the subroutine that the
        XEQ at a place calls, and `loops` has the claims about loops, by the places of their labels."""
        self.label, self.contract = label, contract
        end = next((place for place, line in enumerate(lines) if line.text == "END"), len(lines))
        self.is_whole = bool(contract.wholes or contract.counters or loops or any(needs_counters(line.text) for line in lines[:end]))
        try:
            self.walk = Walk(lines, contract, is_start, called) if not self.is_whole else WholeWalk(
                lines, contract, is_start, called, loops or {})
        except NeedsWholes:
            self.is_whole, self.walk = True, WholeWalk(lines, contract, is_start, called, loops or {})
        self.lines = lines[:self.walk.last + 1]
        self.shown = lines[0].text if LOCAL.fullmatch(lines[0].text) else label
        self.name = re.sub(r"\W", "_", label, flags=re.A)
        callees: list[Program] = [call.program for call in self.walk.calls.values()]
        # How many return addresses the program needs: GTO needs none.
        self.depth: int = max([0, *(call.program.depth + (lines[at].text[:3] == "XEQ") for at, call in self.walk.calls.items())])
        # The programs with a name that are called, each after those that it calls.
        self.subs: list[Program] = []
        for call in self.walk.calls.values():
            for one in [*call.program.subs, *([call.program] if call.place is None else [])]:
                self.subs += [one] if one.name not in [known.name for known in self.subs] else []
        self.numbers: list[str] = sorted({*(line.text for line in self.lines
                                 if NUMBER.fullmatch(line.text) and self.walk.is_opaque(Term("number", (), line.text))),
                               *(text for one in callees for text in one.numbers)})
        self.results: list[Term] = list(self.walk.required)
        self.equations: list[tuple[Equation, Term, Condition | None]] = [
            (one, self.walk.resolved(one.value), self.condition(one)) for one in contract.equations]
        self.used: list[int] = [*registers_in([line.text for line in self.lines]), *self.walk.found_registers(),
                     *(int(name[1:]) for one in contract.equations for name in names_in(one.value, one.register)),
                     *(number for one in callees for number in one.used)]

    def condition(self, one: Equation) -> Condition | None:
        """Returns the condition of an equation as the tests of the program have it: their comparison, or its opposite."""
        if one.condition is None:
            return None
        left, right = self.walk.resolved(one.condition.left), self.walk.resolved(one.condition.right)
        same = Condition(one.condition.relation, left, right, one.condition.is_true)
        turned = Condition({"<": "<=", "<=": "<"}.get(same.relation, ""), right, left, not same.is_true)
        tests = self.walk.tests()
        found = next((each for each in (same, turned) if replace(each, is_true=True) in tests), None)
        if found is None and self.compared(same):
            return same
        if found is None:
            raise Wrong(one.line, 1, f"`{one.text}`: no test of the program compares these two values: after `if`, write what a test "
                        "compares, for example `old X > old Y` for X>Y?, or omit `if`")
        for each in (left, right):
            if any(part.args and part.op not in EXACT and part not in self.walk.required for part in each.parts()):
                raise Wrong(one.line, 1, f"`{one.text}`: the result of {plain(each.text())} may be out of range: add `{asked(each)} is "
                            "in range` to `requires`")
        return found

    def compared(self, condition: Condition) -> tuple[str, str, str] | None:
        """Returns a condition as a comparison of natural numbers of the definitions; None if it is none of whole numbers."""
        left, right = self.walk.nat(condition.left), self.walk.nat(condition.right)
        is_tested = not condition.is_true or condition in self.walk.tests()
        return None if left is None or right is None or is_tested else (left, SIGNS[condition.relation], right)

    def is_never(self, point: Point, condition: Condition) -> bool:
        """Returns whether a condition about whole numbers is false on the path to a point."""
        comparison = self.compared(condition)
        return comparison is not None and isinstance(self.walk, WholeWalk) and contradicts(
            [*self.walk.rows(point.facts), *rows_of(comparison)])

    @property
    def most(self) -> Count:
        """Returns the greatest number of lines."""
        return self.walk.start.most

    def is_sum(self, at: int) -> bool:
        """Returns whether a claim without a condition says that a register contains a whole number that the program computes."""
        _, value, condition = self.equations[at]
        number = self.walk.nat(value)
        return not condition and value.op != "old" and number is not None and not number.isdigit()

    def number(self, text: str) -> str:
        """Returns the name of the number of a number line."""
        return f"n{self.numbers.index(text) + 1}"

    def result(self, term: Term) -> str:
        """Returns the name of the result of an operation."""
        term = term.plain()
        if term not in self.results:
            self.results.append(term)
        return f"v{self.results.index(term) + 1}"

    def variables(self) -> list[tuple[str, str]]:
        """Returns the variables of the theorem that the claims name, with their types."""
        return [*((f"of_{name.lower()}", "ℤ") for name in self.contract.numbers),
                *((f"whole_{name.lower()}", "ℕ") for name in self.contract.wholes),
                *((f"{part}_{name.lower()}", "ℕ") for name in self.contract.counters for part in ("count", "final")),
                *((self.number(text), "Ten") for text in self.numbers),
                *((self.result(term), "Ten") for term in self.walk.required)]

    def amount(self, term: Term) -> str:
        """Returns the number of a value, as an argument."""
        number = self.walk.nat(term)
        parts = self.walk.parts_of(term)
        if number is not None:
            return f"(pos ({number} * one))"
        if parts:
            return f"(pos ({self.walk.nat(parts[0])} * one + {self.walk.nat(parts[1])} * 10 ^ 105))"
        if term.op == "old":
            return f"of_{term.name.lower()}"
        if term.op == "left":
            return self.amount(term.args[0])
        if term.op in ("zero", "pi"):
            return "(pos 0)" if term.op == "zero" else "(pos pi)"
        if term.op == "CHS":
            return f"(neg_ℤ {self.amount(term.args[0])})"
        if term.op == "SIGN":
            return f"(with_sign (sign_of {self.amount(term.args[0])}) one)"
        if term.op == "ABS":
            return f"(pos (unsigned_abs {self.amount(term.args[0])}))"
        return f"(units {self.number(term.name) if term.op == 'number' else self.result(term)})"

    def nearest(self, term: Term, answer: str) -> str:
        """Returns what it means that an answer is the result of an operation."""
        first, last = self.amount(term.args[0]), self.amount(term.args[-1])
        if term.op in ("/", "1/X"):
            return f"NearestQuotient {first if term.op == '/' else '(pos one)'} {last} {answer}"
        if term.op == "SQRT":
            return f"NearestRoot {first} {answer}"
        sign, unit = {"+": ("+ℤ", "1"), "-": ("-ℤ", "1"), "*": ("*ℤ", "one"), "X^2": ("*ℤ", "one")}[term.op]
        return f"Nearest ({first} {sign} {last}) {unit} {answer}"

    def register(self, term: Term, memory: str) -> str:
        """Returns the register of a value from before the program, or of zero, as an argument."""
        if term.op != "old":
            return "zeros"
        if term.name in PLACES:
            return f"(stack_of {memory}).{PLACES[term.name]}"
        return f"(data_in {memory} {int(term.name[1:])})"

    def truth(self, condition: Condition, memory: str) -> str:
        """Returns the truth value of a condition."""
        if condition.relation == "=":
            return f"bytes_eq {self.register(condition.left, memory)} {self.register(condition.right, memory)}"
        name = {"<": "int_lt", "<=": "int_le"}[condition.relation]
        return f"{name} {self.amount(condition.left)} {self.amount(condition.right)}"

    def unknowns(self) -> list[str]:
        """Returns the names of the links, distances and status bits of the lines, numbers first."""
        return sorted((name for at, line in enumerate(self.lines) for name in unknowns_of(line.text, at)), key=is_truth)

    def of_subs(self) -> list[str]:
        """Returns the names of the positions of the programs that are called, and of the parts of their lines."""
        return sorted((name for one in self.subs for name in (f"at_{one.name.lower()}", *map(one.as_sub, one.unknowns()))), key=is_truth)

    def variables_of_lines(self) -> list[str]:
        """Returns the variables of the theorem for parts of lines and for positions: numbers, and then truth values."""
        return [name for part in self.parts() for name in part]

    def parts(self) -> tuple[list[str], list[str]]:
        """Returns the variables of the theorem for parts of lines and for positions by their types: numbers, and truth values."""
        names = [*self.unknowns(), *self.of_subs()]
        return [one for one in names if not is_truth(one)], [one for one in names if is_truth(one)]

    def as_sub(self, name: str) -> str:
        """Returns the name of a link, distance or status bit in a theorem about a program that calls this one."""
        return f"{self.name.lower()}_{name}"

    def leads(self) -> dict[int, int]:
        """Returns the places of the labels to which GTO and XEQ lead, by the places of the lines."""
        return self.walk.jumps | {at: call.place for at, call in self.walk.calls.items() if call.place is not None}

    def callees(self) -> list[str]:
        """Returns the names of the programs that lines call."""
        return sorted({call.program.name for call in self.walk.calls.values()})

    @property
    def needs_start(self) -> bool:
        """Returns whether the theorem is about a program that begins with its label."""
        return bool(self.leads())

    def has(self, memory: str, at: str, unknowns: list[str]) -> str:
        """Returns the requirement that memory has the lines from a position on."""
        lines = f"({self.name}_lines {' '.join(unknowns)})" if unknowns else f"{self.name}_lines"
        return f"{'IsProgram' if self.needs_start else 'HasProgram'} {memory} {at} {lines}"

    def about_numbers(self, memory: str) -> list[tuple[str, str]]:
        """Returns the requirements on numbers, with their names in the proof."""
        rows = [(f"in_{name.lower()}", f"holding_of {self.register(old(name), memory)} ≡ Number of_{name.lower()}")
                for name in self.contract.numbers]
        for name in self.contract.wholes:
            one = name.lower()
            rows += [(f"small_{one}", f"whole_{one} < 10 ^ 10"),
                     (f"is_{one}", f"IsRegisterOf (pos (whole_{one} * one)) {self.register(old(name), memory)}")]
        for name in self.contract.counters:
            one, amount = name.lower(), self.amount(old(name))
            rows += [(f"small_{one}", f"count_{one} < 10 ^ 7"), (f"few_{one}", f"final_{one} < 1000"),
                     (f"is_{one}", f"IsRegisterOf {amount} {self.register(old(name), memory)}")]
        rows += [(f"is_{self.number(text)}", f"IsNumberOf {characters_of(text)} {self.number(text)}") for text in self.numbers]
        rows += [(f"is_{self.result(term)}", self.nearest(term, f"(Ok {self.result(term)})")) for term in self.walk.required]
        if isinstance(self.walk, WholeWalk):
            rows += [(f"given_{at}", " ".join(self.walk.compared(one, self.walk.begin_state)))
                     for at, one in enumerate(self.contract.relations, 1)]
        return rows

    def about_calls(self, memory: str, returns: str) -> list[tuple[str, str]]:
        """Returns the requirements of the calls, with their names in the proof."""
        if not self.walk.calls:
            return []
        rows = [("few", f"length {returns} ≤ {RETURNS - self.depth}")] if self.depth else []
        for one in self.subs:
            at = f"at_{one.name.lower()}"
            rows += [(f"has_{one.name.lower()}", one.has(memory, at, list(map(one.as_sub, one.unknowns())))),
                     (f"finds_{one.name.lower()}", f'FindsName {memory} (codes "{one.label}") {at}')]
        return rows

    def imported(self, *endings: str) -> str:
        """Returns the lines that import definitions of the programs that are called."""
        found = {call.program.name: call.program for call in self.walk.calls.values()} | {one.name: one for one in self.subs}
        return "".join(f"use Rattle.{CRATE}.specs.Of_{name}.{{{', '.join(f'{name}_{ending}' for ending in endings)}}}\n"
                       for name in sorted(found))

    def listed(self) -> str:
        """Returns the list of the lines, as an argument."""
        unknowns = self.unknowns()
        return f"({self.name}_lines {' '.join(unknowns)})" if unknowns else f"{self.name}_lines"

    def after(self, state: str) -> str:
        """Returns the property of the state after the program, as an argument."""
        return f"({self.name}_After {' '.join([state, *(name for name, _ in self.variables())])})"

    def written(self) -> list[int]:
        """Returns the data registers that lines write, and the programs that they call."""
        own = [*written_in(self.lines), *self.walk.found_registers(True)]
        return sorted({*own, *(number for call in self.walk.calls.values() for number in call.program.written())})


def is_truth(name: str) -> bool:
    """Returns whether a variable for a part of a line is a truth value."""
    return TRUTH in name


def names_in(term: Term, register: str) -> list[str]:
    """Returns the data registers that an equation names."""
    return [name for name in [register, *(part.name for part in term.parts() if part.op == "old")] if name.startswith("R")]


def new_results(program: Program, term: Term) -> list[Term]:
    """Returns the operations in a term whose results are no variables of the theorem."""
    return [part for part in term.parts() if part.args and part.op not in EXACT and part not in program.walk.required
            and program.walk.is_opaque(part)]


def claim_text(program: Program, at: int) -> str:
    """Returns what an equation says of the state after the program."""
    one, value, condition = program.equations[at]
    place = f"stack.{PLACES[one.register]}" if one.register in PLACES else f"contents {int(one.register[1:])}"
    given = f"{given_if(program, condition)} → " if condition else ""
    if value.op == "old":
        return f"{given}{place} ≡ {program.register(value, 's.memory')}"
    number = program.walk.nat(value)
    if number is not None:
        return f"{given}IsRegisterOf (pos ({number} * one)) ({place})"
    results = "".join(f"({program.result(term)} : Ten) × {program.nearest(term, f'(Ok {program.result(term)})')} × "
                      for term in new_results(program, value))
    place = f"({place})" if " " in place else place
    last = f"(holding_of {place} ≡ Number {program.amount(value)})"
    return f"{given}({results}{last})" if results else f"{given}{last}"


def given_if(program: Program, condition: Condition) -> str:
    """Returns the condition of a claim."""
    comparison = program.compared(condition)
    return " ".join(comparison) if comparison else (
        f"{program.truth(condition, 's.memory')} ≡ {'true' if condition.is_true else 'false'}")


def binders(names: list[tuple[str, str]]) -> str:
    """Returns variables with their types."""
    return "".join(f" ({name} : {kind})" for name, kind in names)


def left_record(program: Program) -> str:
    """Returns the record of what is true after the program has returned."""
    others = "".join(f"(n ≡ {number} → ⊥) → " for number in program.written())
    rows = [f"-- What {program.shown} leaves.",
            f"pub record {program.name}_Left (s : Machine){binders(program.variables())} (left : Left) : Type 0 where",
            "  pub returned : HasReturned s left", "  pub stack : Stack", "  pub contents : ℕ → List ℕ",
            "  pub becomes : HasBecome s.memory stack contents left.machine.memory",
            f"  pub others : (n : ℕ) → {others}contents n ≡ data_in s.memory n"]
    if program.walk.leaves_lift():
        rows.append("  pub lift : left.machine.focal.lift ≡ true")
    for at, (one, _, _) in enumerate(program.equations):
        rows += [f"  -- {one.text}", f"  pub claim_{at + 1} : {claim_text(program, at)}"]
        if program.is_sum(at):
            rows.append(f"  pub small_{at + 1} : {program.walk.nat(program.equations[at][1])} < 10 ^ 10")
    return "\n".join(rows)


def requirements(program: Program) -> list[str]:
    """Returns the requirements of the theorem, in their order."""
    rows = ["IsMemory registers s.memory", "is_sound s.memory ≡ true", "s.focal.position ≡ Memory at",
            program.has("s.memory", "at", program.unknowns())]
    if program.contract.is_lift_on:
        rows.append("s.focal.lift ≡ true")
    if program.used:
        rows.append(f"{max(program.used)} < size_of s.memory")
    if program.contract.errors:
        rows += ["flag_of s.memory range_ignore ≡ false", "flag_of s.memory error_ignore ≡ false"]
    rows += [row for _, row in program.about_numbers("s.memory")]
    return [*rows, *(row for _, row in program.about_calls("s.memory", "s.focal.returns"))]


def spec_of(program: Program) -> str:
    """Returns the file with the lines, the claims and the theorem."""
    name, unknowns = program.name, program.unknowns()
    kind = f"{kinds_of(unknowns)} → List Line" if unknowns else "List Line"
    terms = " ∷ ".join([*(str(term_of(line.text, at)) for at, line in enumerate(program.lines)), "[]"])
    given = " ".join(str(value) for kind in (int, str) for line in program.lines for value in values_of(line) if isinstance(value, kind))
    spelled = " ∷ ".join([*(f"0x{byte:02X}" for line in program.lines for byte in line.spelled), "[]"])
    errors = "".join(f" ⊎ HasFailed {FAULTS[error]} left" for error in program.contract.errors)
    names = " ".join(["s", *(variable for variable, _ in program.variables())])
    numbers, truths = program.parts()
    rows = [f"-- The program {program.shown}.", f"{USED}{program.imported('lines')}",
            "-- The lines, with any links, keys and status bits in their bytes.",
            f"abbrev pub {name}_lines : {kind}", f"{name}_lines {' '.join(unknowns)}".rstrip() + f" = {terms}", "",
            "-- Their bytes are those that the bench has in memory.", f"abbrev pub {name}_AreSpelled : Type 0",
            f"{name}_AreSpelled = bytes_of_lines {f'({name}_lines {given})' if given else f'{name}_lines'} ≡ {spelled}", "",
            left_record(program), "",
            f"abbrev pub {name}_After : (s : Machine){binders(program.variables())} → Left → Type 0",
            f"{name}_After {names} left = {name}_Left {names} left{errors}", "", "-- The theorem.",
            f"abbrev pub {name}_Returns : Type 0", f"{name}_Returns =",
            f"    (pages : PageMap) (s : Machine) ({' '.join(['registers', 'at', *numbers])} : ℕ)"
            f"{f' {kinds_of(truths)}' if truths else ''}{binders(program.variables())}",
            *(f"    → {row}" for row in requirements(program)), f"    → Leaves pages {program.most} s {program.after('s')}", ""]
    return "\n".join(rows)
