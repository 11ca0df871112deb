"""Builds, lists, runs and tests a module of several pages and banks, which a project file describes.

usage: tools/module new FOLDER
       tools/module build [--out DECK] [--images FOLDER] PROJECT
       tools/module list PROJECT
       tools/module lint PROJECT
       tools/module run PROJECT CALL [SETTING ..]
       tools/module trace PROJECT CALL [SETTING ..]
       tools/module debug PROJECT CALL [SETTING ..]
       tools/module test [--junk SEED].. [--no-junk] [--trace] [--junit OUT] [--table FILE [--call LABEL] [--write OUT --values NAMES]]
                         PROJECT [FILE ..]

PROJECT is a project file, or a folder with the file module.toml.

    new     makes a folder with a project: a module of two pages, with a source for each, and tests
    build   writes a deck that plugs all pages and banks. In it, addresses replace labels of other sources
    list    prints each source with addresses and words, jump targets by their labels, and all labels
    lint    prints what looks wrong in the sources, as tools/lint does
    run     calls a label, and prints the registers afterwards. At a terminal it debugs the call, as debug does
    trace   calls a label, and prints each step with its label, and what it changed
    debug   calls a label, and reads commands of the debugger: `help` lists them
    test    runs the cases of the project's tests, or of each FILE, and prints the results in the format TAP

CALL is a label, PAGE.LABEL, or the name of a function in quotes: LABEL is called at its address, "NAME" by the keys of XEQ. A
SETTING such as X=5, R05=1.5, C=00F, 00D=1A70016919C19B, F22=1, ALPHA="AB" or keys="5 ENTER" sets a register before the call.

  --out DECK      writes the deck to this file; the default is standard output
  --images FOLDER writes the image of each page and bank to FOLDER/NAME.rom, in place of a deck
  --junk SEED     fills the processor's registers that a case does not set with junk made from SEED, a number. May be repeated.
                  The default is --junk 1 --junk 2 --junk 3. Each case also runs without junk first
  --no-junk       runs each case only without junk
  --trace         prints the steps of each failed case
  --junit OUT     also writes the results as JUnit XML to this file
  --table FILE    runs the rows of a CSV file as cases, in place of the project's tests, without junk unless --junk is given
  --call LABEL    what the rows of the table call, if the table has no column `call`
  --write OUT     writes the table with the values found after each call to this CSV file
  --values NAMES  the values to write, separated by commas, for example X,CY

docs/WORKSHOP.md explains project files and tests.

Status 0: the job is done, and all cases passed. 1: a file has an error, lint found something, a call was refused, or a case
failed. 2: the command line is wrong. 3: a file cannot be written. 70: the bench gave no answer."""
import argparse
import sys

from ..commandlines import Parser
from ..decks import end_with_reader
from ..linking import Linked
from ..projects import project_in


def read_options(words: list[str]) -> argparse.Namespace:
    """Parses the command line."""
    parser = Parser(prog="module", add_help=False, allow_abbrev=False, usage=__doc__.split("usage: ")[1].split("\n\n")[0])
    commands = parser.add_subparsers(dest="command", required=True, parser_class=Parser)
    parsers = {name: commands.add_parser(name, add_help=False, allow_abbrev=False)
               for name in ("new", "build", "list", "lint", "run", "trace", "debug", "test")}
    for name, one in parsers.items():
        one.usage, one.prog = parser.usage, "module"
        one.add_argument("project", metavar="FOLDER" if name == "new" else "PROJECT")
    parsers["build"].add_argument("--out", default="-")
    parsers["build"].add_argument("--images")
    for name in ("run", "trace", "debug"):
        parsers[name].add_argument("call", metavar="CALL")
        parsers[name].add_argument("settings", metavar="SETTING", nargs="*", default=[])
    test = parsers["test"]
    test.add_argument("--junk", metavar="SEED", type=int, action="append")
    test.add_argument("--no-junk", action="store_true")
    test.add_argument("--trace", action="store_true")
    test.add_argument("--junit", metavar="OUT")
    test.add_argument("--table", metavar="FILE")
    test.add_argument("--call", metavar="LABEL")
    test.add_argument("--write", metavar="OUT")
    test.add_argument("--values", metavar="NAMES")
    test.add_argument("files", metavar="FILE", nargs="*", default=[])
    options = parser.parse_args(words)
    if options.command == "test" and (options.write is None) != (options.values is None):
        test.error(f"found {'--values without --write' if options.write is None else '--write without --values'}, expected both")
    alone = next((name for name in ("call", "write") if options.command == "test" and getattr(options, name)), None)
    if alone and options.table is None:
        test.error(f"--{alone} can only be used with --table")
    if options.command == "build" and options.out.lower().endswith((".mod", ".rom")):
        parsers["build"].error(f"--out {options.out}: this option writes a deck: {writer_of(options)}")
    return options


def writer_of(options: argparse.Namespace) -> str:
    """Returns what writes a file of a module, or images of pages."""
    if options.out.lower().endswith(".mod"):
        return f"`tools/module build {options.project} | tools/export mod - {options.out}` writes a .mod file"
    return "--images FOLDER writes .rom files"


def main(words: list[str]) -> int:
    """Does the job of the command line. Returns the status."""
    if words in (["-h"], ["--help"]):
        print(__doc__.strip())
        return 0
    options = read_options(words)
    if options.command == "new":
        from ..starting import new
        return new(options.project)
    linked = Linked(project_in(options.project))
    if options.command == "test":
        from ..testing import test
        return test(linked, options)
    if options.command == "debug" or options.command == "run" and sys.stdin.isatty() and sys.stdout.isatty():
        from ..running import debug
        return debug(linked, options.call, options.settings)
    if options.command in ("run", "trace"):
        from ..running import call
        return call(linked, options.call, options.settings, options.command == "trace")
    from ..building import build, lint, listing
    linked.assemble()
    if options.command == "build":
        return build(linked, options.out, options.images)
    end_with_reader()
    return listing(linked) if options.command == "list" else lint(linked)
