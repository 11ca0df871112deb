"""Tries and proves the claims about the programs of a file, and prints a line for each program and for each claim that is false or not
proved."""
from __future__ import annotations

import os
import tempfile
from argparse import Namespace

from .claims import Wrong
from .codes import NotProved
from .decks import Failure, end_with_reader
from .linefiles import write_crate
from .lineprograms import Source, mismatches, programs_in, source_of
from .linetheorems import Program
from .linetrials import LineTrials
from .proving import USED_BY_PROGRAMS, check_libraries, kit, prove


class ProgramReport:
    """The lines about the programs of a file."""

    def __init__(self, source: Source) -> None:
        """Nothing is bad yet."""
        self.source, self.is_good = source, True

    def tell(self, line: int, text: str) -> None:
        """Prints a line about a line of the claims."""
        print(f"{self.source.claims}:{line}: {text}", flush=True)

    def bad(self, line: int, claim: str, text: str) -> None:
        """Prints a line about a claim that is false or not proved."""
        self.is_good = False
        self.tell(line, f"`{claim}`: {text}" if claim else text)


def try_programs(report: ProgramReport, programs: list[tuple[int, Program]]) -> dict[str, int]:
    """Tries the claims of all programs, and compares them with the values that the lines compute. Returns the labels without a false
    claim, with the number of states that were tried."""
    tried: dict[str, int] = {}
    for _, program in programs:
        count, found = LineTrials(program, report.source.data).false_claims()
        for one in found:
            report.bad(one.line, one.claim, f"false: {one.why}")
        known = {one.claim for one in found}
        others = [one for one in mismatches(program) if one.claim not in known and "returns" not in known]
        for mismatch in others:
            report.bad(mismatch.line, mismatch.claim, f"not proved: {mismatch.why}. It may be true: it is not false from any of the "
                       f"{count} states that the bench tried")
        if not found and not others:
            tried[program.name] = count
    return tried


def with_callees(report: ProgramReport, programs: list[tuple[int, Program]], tried: dict[str, int]) -> list[tuple[int, Program]]:
    """Returns the programs without a false claim. A program that calls one with a false claim is no such program."""
    found: list[tuple[int, Program]] = []
    for line, program in programs:
        names = [one.name for _, one in found]
        missing = [call.program.shown for call in program.walk.calls.values() if call.program.name not in names]
        if program.name in tried and missing:
            report.bad(line, "", f"{program.shown}: not proved, because it calls {missing[0]}, whose claims are not proved")
        elif program.name in tried:
            found.append((line, program))
    return found


def prove_programs(report: ProgramReport, programs: list[tuple[int, Program]], tried: dict[str, int], options: Namespace) -> None:
    """Proves the theorems of the programs without a false claim."""
    chosen = with_callees(report, programs, tried)
    if not chosen:
        return
    with tempfile.TemporaryDirectory() as room:
        folder = options.keep or os.path.join(room, "programs")
        proofs = write_crate(folder, [program for _, program in chosen], os.path.basename(options.file))
        verdict = prove(folder, options.libraries, proofs, USED_BY_PROGRAMS)
    for line, claim, why in verdict.faults:
        report.bad(line or chosen[0][0], claim, f"not proved: {why}")
    for line, program in chosen:
        if program.name in verdict.proved:
            count = len(program.equations)
            claims, lines = f"claim{'' if count == 1 else 's'}", f"line{'' if str(program.most) == '1' else 's'}"
            report.tell(line, f"{program.shown}: proved for every state that meets its requirements: {count} {claims}, "
                        f"within {program.most.shown()} {lines}; the bench tried {tried[program.name]} states")
        elif not verdict.faults:
            report.bad(line, "", f"{program.shown}: not proved, and the prover does not say why: with --keep FOLDER, the proof is in "
                                 "FOLDER/proofs")
        elif unproved := [call.program.shown for call in program.walk.calls.values() if call.program.name not in verdict.proved]:
            report.bad(line, "", f"{program.shown}: not proved, because it calls {unproved[0]}, whose claims are not proved")


def read(options: Namespace) -> tuple[Source, list[tuple[int, Program]]]:
    """Reads the file and its claims."""
    source = source_of(options.file, options.claims)
    try:
        return source, programs_in(source)
    except Wrong as why:
        raise Failure(f"{source.claims}:{why.line}: column {why.column}: {why}") from why
    except NotProved as why:
        raise Failure(f"{source.place(why.line)}: {why}") from why


def run_programs(options: Namespace) -> int:
    """Tries or proves the claims about a file of programs. Returns the status."""
    if not options.is_trial:
        kit()
        check_libraries(options.libraries, USED_BY_PROGRAMS)
    source, programs = read(options)
    report = ProgramReport(source)
    tried = try_programs(report, programs)
    end_with_reader()
    if options.is_trial:
        for line, program in programs:
            if program.label in tried:
                report.tell(line, f"{program.label}: no claim is false from {tried[program.name]} states; nothing is proved")
    else:
        prove_programs(report, programs, tried, options)
    return 0 if report.is_good else 1
