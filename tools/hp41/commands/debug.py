"""Debugs a deck: executes it step by step, forwards and backwards.

usage: tools/debug [--memory N] DECK

The debugger executes the deck up to its first step, run or trace, and then reads commands. At a terminal, the Tab key completes
commands, labels and registers, and the arrow keys recall earlier lines; otherwise the commands are read from standard input.
It prints the address, the label and the source line of the next instruction, and after each command what has changed.

  --memory N   runs the deck with N registers of memory: 64, 128, 192, 256 or 320

The commands, many of which have a short form of one letter:

COMMANDS

tools/module debug does the same with a call of a project. docs/DEBUGGING.md has an example.

Status 0: the debugger was ended. 2: the command line is wrong. 3: the deck cannot be read. 70: the bench gave no answer."""
import argparse

from ..commandlines import Parser
from ..debugger import HELP, Debugger, loop
from ..debugging import Machine, banked
from ..decks import MEMORIES, MEMORY, Failure, bytes_of, items_of, lines_of, with_keys, words_of
from ..sourcing import Places, parts_of_deck

RUN = (b"step", b"run", b"trace")


def read_options(words: list[str]) -> argparse.Namespace:
    """Parses the command line."""
    parser = Parser(prog="debug", add_help=False, allow_abbrev=False, usage="tools/debug [--memory N] DECK")
    parser.add_argument("--memory", choices=MEMORIES, default=MEMORY)
    parser.add_argument("deck", metavar="DECK")
    options = parser.parse_args(words)
    if options.deck == "-":
        parser.error("found -, expected a file: standard input is for the commands of the debugger")
    return options


def main(words: list[str]) -> int:
    """Reads the deck, and then the commands. Returns the status."""
    if words in (["-h"], ["--help"]):
        print(__doc__.strip().replace("COMMANDS", HELP))
        return 0
    options = read_options(words)
    try:
        deck = with_keys(bytes_of(options.deck))
    except Failure as failure:
        raise Failure(str(failure), 3) from failure
    lines = lines_of(deck)
    items = items_of(lines)
    first = next((at for at, (begin, _) in enumerate(items) if words_of(lines[begin])[:1] and words_of(lines[begin])[0] in RUN), len(items))
    commands = [b"".join(lines[begin:last + 1]) for begin, last in items]
    machine = Machine(commands[:first], options.memory, banked(commands))
    places = Places(parts_of_deck(options.deck, deck, items[:first]))
    return loop(Debugger(machine, places, commands[first:]))
