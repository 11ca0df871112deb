"""Proves what comments before labels of a source or a program claim, for every state of the calculator.

usage: tools/prove-module [--page P] [--try] [--keep FOLDER] [--libraries FOLDER] [--verbose] FILE.asm     (- is standard input)
       tools/prove-module [--try] [--keep FOLDER] [--libraries FOLDER] [--verbose] PROJECT
       tools/prove-module [--try] [--keep FOLDER] [--libraries FOLDER] [--verbose] FILE.txt
       tools/prove-module [--try] [--keep FOLDER] [--libraries FOLDER] [--verbose] FILE.raw CLAIMS.txt

A label is a function that is proved if the comments directly before it claim something:

        ; requires  C.SX <= 0FE
        ; ensures   C.SX = old C.SX + 1, other digits of C as before, within 3 steps
        INC:    C=C+1 S&X
                RTN

PROJECT is a project file of tools/module, whose name ends in .toml, or a folder with the file module.toml. The functions of all its pages
and banks are proved, and they can call each other.

FILE.txt is the listing of a keystroke program, with claims in the comments before its labels:
    ; requires Y and X are numbers
    ; ensures  X = old Y - old X, Y = old Z, or OUT OF RANGE
    LBL "DIFF"
    -
    RTN
FILE.raw has the bytes of a program. Its claims are in CLAIMS.txt: after the comments, a line there names the label.

docs/PROVE-YOUR-MODULE.md explains the language of claims, and what a theorem says. First the bench calls each function or program from
some states, to find states from which a claim is false. If there are none, the prover of the Rattle kit proves the claims. For each
function or program, and for each claim that is false or not proved, a line on standard output begins with FILE:LINE.

  --page P             the page of the source, 4 to F. The default is 8. A project has its pages in its file
  --try                tries the claims on the bench, and proves nothing
  --keep FOLDER        keeps the crate with the theorems and proofs in a new folder
  --libraries FOLDER   where the proved libraries are. The default is where ./bench prove --all keeps them, or `rt ci`
  --verbose            shows on standard error which function is tried or proved. This is the default on a terminal

Status 0: everything is proved; with --try, no claim was false. 1: a claim is false or not proved, or the source or a claim has an
error. 2: the command line is wrong. 3: the lines cannot be written, or the bench has failed. 70: there is no answer, because the
bench, the kit or a library is missing."""
import argparse
import os
import tempfile

from .. import progress
from ..claims import Wrong
from ..codes import Code, NotProved, Result
from ..commandlines import Parser
from ..decks import Failure, end_with_reader
from ..linking import Linked
from ..listing import add_project, add_source, in_order
from ..misplaced import wrong_page
from ..projects import project_in
from ..proving import LIBRARIES, check_libraries, kit, prove
from ..sources import PAGES, Assembled, Faulty
from ..theoremfiles import write_crate
from ..trials import counterexamples


def is_program(path: str) -> bool:
    """Returns whether a file is a program, by its name."""
    return os.path.splitext(path)[1].lower() in (".txt", ".raw")


def options_of(words: list[str]) -> argparse.Namespace:
    """Returns the options of a command line."""
    parser = Parser(prog="prove-module", add_help=False, allow_abbrev=False,
                    usage="tools/prove-module [--page P] [--try] [--keep FOLDER] [--libraries FOLDER] [--verbose] FILE.asm, PROJECT, "
                          "FILE.txt, or FILE.raw CLAIMS.txt")
    parser.add_argument("--page")
    parser.add_argument("--try", action="store_true", dest="is_trial")
    parser.add_argument("--keep")
    parser.add_argument("--libraries", default=LIBRARIES)
    parser.add_argument("--verbose", action="store_true", dest="is_verbose")
    parser.add_argument("file", metavar="FILE")
    parser.add_argument("claims", metavar="CLAIMS.txt", nargs="?")
    options = parser.parse_args(words)
    check_claims(options, parser)
    options.is_project = options.file.endswith(".toml") or os.path.isdir(options.file)
    if options.is_project and options.page:
        parser.error(f"--page {options.page}: the project file {options.file} has the pages: omit --page")
    options.page = (options.page or "8").upper()
    if len(options.page) != 1 or options.page not in PAGES:
        parser.error(wrong_page(options.page))
    return options


def check_claims(options: argparse.Namespace, parser: Parser) -> None:
    """Checks that there is a file of claims for bytes of a program, and for no other file."""
    is_raw = options.file.lower().endswith(".raw")
    if is_raw and not options.claims:
        parser.error(f"{options.file}: bytes have no comments: give a text with claims after it, as in prove-module {options.file} "
                     "CLAIMS.txt")
    if options.claims and not is_raw:
        parser.error(f"found {options.claims} after {options.file}, expected one file: only FILE.raw has its claims in another file")
    if is_program(options.file) and options.page:
        parser.error(f"--page {options.page}: a program has no page: omit --page")


def place_of(code: Code, line: int) -> str:
    """Returns the file and the number of a source line, or an empty text if there is none."""
    if not line:
        return ""
    path, number = code.origins[line - 1]
    return f"{path}:{number}"


class Report:
    """The lines about one source or project."""

    def __init__(self, path: str, code: Code) -> None:
        """Nothing is bad yet."""
        self.path, self.code, self.is_good = path, code, True

    def tell(self, line: int, text: str) -> None:
        """Prints a line about a source line."""
        print(f"{place_of(self.code, line) or self.path}: {text}", flush=True)

    def bad(self, line: int, claim: str, text: str) -> None:
        """Prints a line about a claim that is false or not proved."""
        self.is_good = False
        self.tell(line, f"`{claim}`: {text}" if claim else text)


def try_all(report: Report, code: Code) -> dict[str, int]:
    """Tries the claims of all functions. Returns the labels without a false claim, with the number of states that were tried."""
    tried: dict[str, int] = {}
    labels = [label for label, contract in code.contracts.items() if contract.is_function]
    for at, label in enumerate(labels, 1):
        progress.show(f"trying {code.shown(label)}, {at} of {len(labels)}")
        count, found = counterexamples(code, label)
        for one in found:
            report.bad(one.line, one.claim, f"false: {one.why}")
        if not found:
            tried[label] = count
    return tried


def prove_all(report: Report, code: Code, tried: dict[str, int], options: argparse.Namespace) -> None:
    """Proves the claims of the functions without a false claim."""
    results = in_order(code, report, set(tried))
    if not results:
        return
    with tempfile.TemporaryDirectory() as room:
        folder = options.keep or os.path.join(room, "module")
        proofs = write_crate(folder, code, results, os.path.basename(os.path.abspath(options.file)))
        verdict = prove(folder, options.libraries, proofs, reasons={path: proof.reasons for path, proof in proofs.items()})
    for line, claim, why in verdict.faults:
        report.bad(line, claim, f"not proved: {why}")
    for result in results:
        if result.label in verdict.proved:
            tell_proved(report, code, result, tried[result.label])
        elif not verdict.faults:
            report.bad(result.contract.line, "", f"{code.shown(result.label)}: not proved")
        elif unproved := [name for name in result.calls if name not in verdict.proved]:
            report.bad(code.line_of(result.label), "", f"{code.shown(result.label)}: not proved, because it calls "
                       f"{code.shown(unproved[0])}, whose claims are not proved")


def tell_proved(report: Report, code: Code, result: Result, count: int) -> None:
    """Prints that a function is proved."""
    claims = len(result.contract.ensures)
    claimed = result.contract.steps
    steps = claimed.text if claimed else f"within {result.steps} step{'' if result.steps == 1 else 's'}"
    report.tell(code.line_of(result.label), f"{code.shown(result.label)}: proved for every state that meets its requirements: "
                f"{claims} claim{'' if claims == 1 else 's'}, {steps}; the bench tried {count} states")


def code_in(options: argparse.Namespace) -> Code:
    """Returns the code of the source or the project."""
    code = Code([], {}, {}, {})
    try:
        if options.is_project:
            add_project(code, Linked(project_in(options.file)))
        else:
            add_source(code, Assembled(options.file, options.page))
    except Faulty as why:
        raise Failure(str(why), why.status) from why
    except (Wrong, NotProved) as why:
        column = f"column {why.column}: " if isinstance(why, Wrong) else ""
        raise Failure(f"{place_of(code, why.line)}: {column}{why}") from why
    return code


def main(words: list[str]) -> int:
    """Proves a source or a project. Returns the status."""
    if words in (["-h"], ["--help"]):
        print((__doc__ or "").strip())
        return 0
    options = options_of(words)
    progress.begin(options.is_verbose)
    if options.keep and os.path.exists(options.keep):
        raise Failure(f"--keep {options.keep}: it exists already: choose another name")
    if is_program(options.file):
        # Only programs need these modules, which take time to load.
        from ..lineproving import run_programs
        return run_programs(options)
    if not options.is_trial:
        kit()
        check_libraries(options.libraries)
    code = code_in(options)
    report = Report(options.file, code)
    tried = try_all(report, code)
    end_with_reader()
    if options.is_trial:
        for label, count in tried.items():
            report.tell(code.line_of(label), f"{code.shown(label)}: no claim is false from {count} states; nothing is proved")
    else:
        prove_all(report, code, tried, options)
    return 0 if report.is_good else 1
