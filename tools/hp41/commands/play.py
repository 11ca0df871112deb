"""Runs programs by pressing keys, and prints each text that they show; or tests them.

usage: tools/play [--size N|auto] [--memory N] [--steps N] [--skip NAME,..] [--tone] FILE.. [KEYS ..]
       tools/play [OPTION ..] [--workers N|MACHINE,..] --script CASES FILE..
       tools/play [OPTION ..] --shard I/N --script CASES FILE..
       tools/play --script CASES --join PART..

FILE is a file that tools/import reads, or a deck, NAME.deck. Several files are loaded one after the other, so that one program can
call another. KEYS are names of keys. A text in quotes means its letters between two ALPHA, and a number means its keys:
XEQ '"DOW"' 7.201969 R/S. If ALPHA is on already, as after AON in a program, or if a name is being typed, a text means its letters
alone. The keys are pressed in turn. If a key starts a program, the program runs until it stops, before the next key is pressed.
Without KEYS, each line of standard input has some; on a terminal, the tool asks for them.

Each text that VIEW, AVIEW, PROMPT or PSE shows is printed after `> `. The reason why the program stopped is printed after `= `:

    = asks in line 4, PROMPT
    = answers 7.0000 in line 12, RTN
    = DATA ERROR in line 6, / (X 0, Y 12)
    = NONEXISTENT by the keys                               for example XEQ of a name that does not exist
    = refused in line 3, SIN: ! 13 NotInProfile
    = limit: 1000000 steps, and line 2, GTO 01, is next
    = key 3, LN, is refused: ! 13 NotInProfile
    = Break: 5 steps, and line 3, RTN, is next              a breakpoint of the deck
    = shows 12.0000                                         no program runs

After an error, X and Y are printed, and the register that the line names. Lines are counted in their program. A line that begins
with `- ` is a warning:

    - line 12, SIN, was skipped; X stays
    - line 9, XEQ 07, stores a seventh return address; the oldest is lost

  --size N        the number of data registers, as for tools/import. With `auto` it is the number that the lines name; if they use
                  registers by IND, it is as many as there is room for. Standard error reports which size it is
  --memory N      the number of registers of memory: 64, 128, 192, 256 or 320
  --steps N       the most steps that a program may make after a key; the default is 1000000
  --skip NAME,..  skips the lines of these functions, for example SIN,COS. The stack does not change
  --tone          accepts TONE with any number; it is silent
  --script CASES  runs each row of this file as a test, and prints the results in the Test Anything Protocol. May be repeated
  --workers N     so many processes share the tests; the default is one for each core. With names of machines, such as
                  ann@one,ann@two, GNU parallel runs shares of the tests there by ssh; they need the same files at the same paths
  --shard I/N     prints the results of share I of N of the tests, counted from 1, for a batch system
  --join          joins the output of all N shares, which are files, in the order of the tests

A row of CASES has a name in quotes, or R/S, what is set before, `->`, and what is wanted afterwards:
    "QUAD" input="1 R/S -5 R/S 6 R/S" -> display="X2=2.0000" R01=1     # two zeros
docs/OLD-PROGRAMS.md lists what can be set and wanted.

The bench presses the keys, from the start again for each line of standard input.

Status 0: the program asks, answers or shows a number; or all tests passed. 1: an error, a refusal or the limit, a failed test, or
FILE cannot be read. The rest of KEYS is not pressed then, but further lines of standard input are, and the last one determines the
status. 2: the command line is wrong. 70: the bench gave no answer."""
from __future__ import annotations

import argparse
import os
import re
import signal
import sys
from functools import partial
from typing import TYPE_CHECKING, Any, Callable, Iterable, Iterator, Union

from ..commandlines import Parser
from ..decks import MEMORIES, MEMORY, end_with_reader, shown
from ..fronts import AUTO, Skips, front_of
from ..keyboard import KEYS
from ..playing import Player, Round
from ..shares import by_machines, cores, joined, part_text, share_of, spread, workers_of
from ..typed import WORD, NoKeys, Text, is_spelled, pieces_of, why_no_key

if TYPE_CHECKING:
    from ..scripts import Case, CaseResult, Tester

MOST_STEPS = 9_999_999

# So many cases a process gets at a time.
TOGETHER = 50


def lines_of_keys(keys: list[str]) -> Iterator[str]:
    """Yields rows of keys: that of the command line, or those of standard input."""
    if keys:
        yield " ".join(keys)
        return
    asks = sys.stdin.isatty()
    while True:
        if asks:
            print("keys? ", end="", flush=True)
        line = sys.stdin.readline()
        if not line:
            return
        yield line


def tell(lines: Iterable[str]) -> None:
    """Prints lines. Ends the tool if nobody reads them any more."""
    try:
        print(*lines, sep="\n", flush=True)
    except BrokenPipeError:
        end_with_reader()
        signal.raise_signal(signal.SIGPIPE)


def split(words: list[str]) -> tuple[list[str], list[str]]:
    """Splits the words of a command line into files and keys. The first word is a file; further words are, up to the first one that is
    neither an existing file nor has the ending of one, or that consists of keys."""
    at = 1
    while at < len(words) and not are_keys(words[at]) and (os.path.exists(words[at]) or re.search(r"\.[A-Za-z0-9]{1,6}\Z", words[at])):
        at += 1
    return words[:at], words[at:]


def are_keys(words: str) -> bool:
    """Returns whether a word of a command line consists of keys, texts and numbers."""
    found = WORD.findall(words)
    return bool(found) and all(word in KEYS or is_spelled(word) for word in found)


def press(options: argparse.Namespace, keys: list[str]) -> int:
    """Presses keys, and prints what the programs show. Returns the status."""
    front, skipped = loaded(options)
    player = Player(options.steps, options.memory, skipped)
    pressed: list[str] = []
    status = 0
    for line in lines_of_keys(keys):
        try:
            more = pieces_of(line.strip())
            unknown = [key for key in more if not isinstance(key, Text) and key not in KEYS]
            if unknown:
                raise NoKeys(why_no_key(unknown[0]))
        except NoKeys as why:
            print(f"play: `{shown(line.strip())}`: {why}", file=sys.stderr)
            status = 1
            continue
        if not more:
            continue
        one = Round(front, pressed + more, len(pressed))
        told, status, count = next(player.play([one]))
        tell(told)
        pressed = one.keys()[:count]
    return status


def loaded(options: argparse.Namespace) -> tuple[bytes, dict[int, str]]:
    """Returns the deck that loads the programs, and the lines that are skipped."""
    front, skipped, size = front_of(options.files, options.memory, options.size, Skips((options.skip or "").split(","), options.tone))
    if size is not None:
        print(f"play: --size auto: SIZE {size:03}", file=sys.stderr)
    return front, skipped


def test(options: argparse.Namespace, words: list[str]) -> int:
    """Runs the cases of scripts, or joins the parts of their results. Returns the status."""
    from ..scripts import Tester, cases_in, tap
    if options.join:
        return report(tap, joined("play", options.files))
    cases = [case for path in options.script for case in cases_in(path)]
    workers, machines = options.workers or workers_of(str(cores()))
    if machines:
        return report(tap, by_machines("play", words, machines, "shares"))
    front, skipped = loaded(options)
    own = options.shard.own(cases) if options.shard else cases
    run = partial(results_of, Tester(front, options.steps, options.memory, skipped))
    found = list(spread(run, own, workers, TOGETHER, "cases"))
    if options.shard:
        tell(part_text("play", options.shard, len(cases), found).splitlines())
        return 0
    return report(tap, found)


def results_of(tester: Tester, cases: list[Case]) -> list[CaseResult]:
    """Returns the results of cases."""
    return tester.results(cases)


def report(tap: Callable[[list[Any]], str], found: list[Any]) -> int:
    """Prints results. Returns the status."""
    tell(tap(found).splitlines())
    return int(any(faults for _, faults in found))


def main(words: list[str]) -> int:
    """Presses keys, or runs tests. Returns the status."""
    if words in (["-h"], ["--help"]):
        print(__doc__.strip())
        return 0
    options = read_options(words)
    if options.script:
        at = words.index("--workers") if "--workers" in words else len(words)
        return test(options, words[:at] + words[at + 2:])
    return press(options, options.keys)


def size_of(text: str) -> Union[int, str]:
    """Returns the value of --size."""
    if text != AUTO and not text.isdecimal():
        raise argparse.ArgumentTypeError(f"found '{text}', expected a number or auto")
    return AUTO if text == AUTO else int(text)


def read_options(words: list[str]) -> argparse.Namespace:
    """Parses the command line."""
    parser = Parser(prog="play", add_help=False, allow_abbrev=False,
                    usage="tools/play [--size N|auto] [--memory N] [--steps N] [--skip NAME,..] [--tone] FILE.. "
                    "[KEYS ..], or tools/play --script CASES [--workers N|MACHINE,..] [--shard I/N] FILE..; see --help")
    parser.add_argument("--size", type=size_of)
    parser.add_argument("--memory", choices=MEMORIES, default=MEMORY)
    parser.add_argument("--steps", type=int, default=1_000_000)
    parser.add_argument("--skip", metavar="NAME,..")
    parser.add_argument("--tone", action="store_true")
    parser.add_argument("--script", action="append", metavar="CASES")
    parser.add_argument("--workers", type=workers_of)
    parser.add_argument("--shard", type=share_of)
    parser.add_argument("--join", action="store_true")
    parser.add_argument("files", metavar="FILE", nargs=1)
    parser.add_argument("keys", nargs=argparse.REMAINDER, metavar="KEYS")
    if not words:
        parser.error("no FILE: expected a program and keys, for example tools/play x.raw R/S")
    options = parser.parse_args(words)
    options.files, options.keys = split([*options.files, *options.keys])
    if options.size not in (None, AUTO) and not 0 <= options.size < int(options.memory):
        parser.error(f"--size {options.size}: expected a size from 0 to {int(options.memory) - 1}, or auto")
    if not 1 <= options.steps <= MOST_STEPS:
        parser.error(f"--steps {options.steps}: expected 1 to {MOST_STEPS}")
    alone = next((name for name in ("workers", "shard", "join") if getattr(options, name)), None)
    if alone and not options.script:
        parser.error(f"--{alone} can only be used with --script CASES")
    if options.script and options.keys:
        parser.error(f"found the keys {' '.join(options.keys)} with --script, expected files alone: the rows of CASES have the keys")
    if options.files == ["-"] and not options.keys and not options.script:
        parser.error("standard input has the program, so it cannot have the keys: give KEYS, or a file in place of -")
    return options
