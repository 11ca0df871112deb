"""Runs a deck, and prints beside each traced step what the step has changed.

usage: tools/trace [--memory N] [--labels] [--function] [--explain] [--watch HHH].. DECK     (- is standard input)

Each line of a `trace n` is printed with the changes of its step, the old value and the new one:
    Micro 8002 C=C+1 S&X          C 00000000000FFF -> 00000000000000
                                  CY 0 -> 1
A, B, C, M, N, G, T, ST, P, Q, PT, CY, MODE, RAM, KY, KF and RTN are those of `show cpu`; PC is in the line of the next step. Then
follow the stack (`stack X`), flags that were set or cleared, ALPHA, the display, and registers of memory that are watched:

  --watch HHH    also prints changes of this register of memory, with its address as in `show ram HHH`. May be repeated
  --labels       prints labels after addresses of pages whose source is in the deck: the last label at or before the address,
                 and the offset in hexadecimal words, for example `Micro 8035 PAIR+2` or `Run P8012 SQ+6`. Addresses that
                 `show pos` and refusals print get labels too. If several banks of the page have sources, the label of each is
                 printed, in the order of the banks, for example `Micro 800D DBL+4/WORK`, because any of them may be active
  --memory N     runs the deck with N registers of memory: 64, 128, 192, 256 or 320
  --function     ends a trace when the function ends
  --explain      prints below each step a sentence that says what it does, with the values before it and the carry after it

The output of the other commands is printed without a change.

The bench runs the deck once. Each `trace n` is replaced by n times `trace 1` and some `show` commands, which change nothing. A
trace ends at a step that is refused. A deck from standard input is executed as it arrives, if the program is built and --function
is not given: each command is answered before the next one is read.

Status 0: no refusal was printed. 1: a refusal was printed. 2: the command line is wrong. 3: the deck cannot be read or executed to
its end, or the output cannot be written. 70: the bench gave no answer."""
from __future__ import annotations

import argparse
import re
import subprocess
import sys
import tempfile
from itertools import chain
from threading import Thread
from typing import IO, Any, Iterator, Optional

from ..addresses import Labels
from ..commandlines import Parser
from ..decks import (BENCH, LONGEST_DECK, MARK, MARK_ANSWER, MEMORIES, MEMORY, NEVER_REFUSED, NO_ANSWER, OPENERS, Failure, answers_of,
                     bytes_of, ended, is_skipped, items_of, lines_of, run, running, with_keys, words_of)
from ..explaining import Explained
from ..session import pipes_of, want_program
from ..values import lost_of, text_of

MOST_STEPS = 9_999_999

# The column of the changes.
BESIDE = 30

# The position of a step, in a function or in a program of a page.
IN_A_PAGE = re.compile(r"(?:Micro |(?:Run|Idle) P)([0-9A-F]{4})")

# The views before the first step of a trace and after each step, and how many lines each prints.
VIEWS = {b"show cpu": 5, b"show stack": 5, b"show flags": 1, b"show alpha": 1, b"show display": 1}


# The values of the views, by name. The value of `flags` is a set of their numbers, and all others are texts.
Values = dict[str, Any]


def steps_of(words: list[bytes]) -> Optional[int]:
    """Returns the n of a `trace n`, from the words of its line; None for other commands, and if n is refused."""
    if len(words) == 2 and words[0] == b"trace" and re.fullmatch(rb"[0-9]+", words[1]) and int(words[1]) <= MOST_STEPS:
        return int(words[1])
    return None


# The views.

def parts_of(views: list[str]) -> Values:
    """Returns the values in the lines of the views, by name."""
    *rows, returns = views[:5]
    parts: Values = dict(part.split("=") for row in rows for part in row.split())
    parts["RTN"] = returns.removeprefix("RTN=")
    del parts["PC"]
    parts.update(("stack " + name, digits) for name, digits in (row.split("=") for row in views[5:10]))
    parts["flags"] = set(views[10].split())
    parts["ALPHA"], parts["display"] = f'"{views[11]}"', f'"{views[12]}"'
    parts.update((name, value) for name, value in (row.split("=") for row in views[13:]))
    return parts


def changes_of(before: Values, after: Values) -> list[str]:
    """Returns the differences between two sets of values, as they are printed."""
    told = []
    for name, now in after.items():
        old = before[name]
        if name == "flags":
            both = ("set", now - old), ("cleared", old - now)
            told += [f"flags {how} {' '.join(sorted(numbers))}" for how, numbers in both if numbers]
        elif old != now:
            told.append(f"{name} {old} -> {now}")
    lost = lost_of(before["RTN"], after["RTN"])
    return [*told, f"the fourth return address, {lost}, is lost"] if lost else told


def labelled(line: str, labels: Labels) -> str:
    """Returns the line of a step with the label of its address."""
    found = IN_A_PAGE.match(line)
    if not labels.width or not found:
        return line
    return f"{found[0]} {labels.of(found[1]):<{labels.width}}{line[found.end():]}".rstrip()


def beside(line: str, changes: list[str], column: int = BESIDE) -> list[str]:
    """Returns the line of a step with its changes, from this column on and on the lines below."""
    margins = [f"{line:<{column - 2}}  ", *[" " * column] * (len(changes) - 1)]
    return [margin + change for margin, change in zip(margins, changes)] or [line]


# The deck that is run.

class Item:
    """A command or block of the deck: its lines, the words of the first one, and the n of a `trace n`, or None."""

    def __init__(self, lines: list[bytes]) -> None:
        """Reads the words of the first line."""
        self.lines = lines
        self.words = words_of(lines[0])
        self.steps = steps_of(self.words)

    def shorten(self, steps: int) -> None:
        """Changes the number of steps of a trace."""
        self.steps, self.lines = steps, [b"trace %d\n" % steps]

    def pieces(self, views: bytes) -> Iterator[bytes]:
        """Yields the lines that are run in its place."""
        if self.steps is None:
            yield from self.lines
        else:
            yield views
            for _ in range(self.steps):
                yield b"trace 1\n" + views


def items_in(path: str, memory: str) -> list[Item]:
    """Returns the commands and blocks of a deck."""
    try:
        deck = bytes_of(path)
    except Failure as failure:
        raise Failure(str(failure), 3) from failure
    if len(deck) > LONGEST_DECK:
        raise longer(path, len(deck))
    lines = lines_of(with_keys(deck, memory))
    return [Item(lines[first:last + 1]) for first, last in items_of(lines)]


def longer(path: str, size: int) -> Failure:
    """Returns the error for a deck with more bytes than a deck may have."""
    return Failure(f"{path}: the deck has {size:,} bytes: at most {LONGEST_DECK:,} can be run", 3)


def end_with_functions(items: list[Item], path: str, memory: str) -> None:
    """Shortens traces that continue after the end of a function."""
    at = 0
    while True:
        status, output = run(MARK.join(b"".join(item.lines) for item in items), memory)
        answers = answers_of(output)
        if status > 1 or items and len(answers) != len(items):
            raise Failure(f"{path}: {ended(status, f'after it answered {len(answers) - 1} of {len(items)} commands')}", 3)
        for at in range(at, len(items)):
            modes = [line.split(b" ")[0] for line in answers[at]] if items[at].steps is not None else []
            ends = [step for step in range(1, len(modes)) if modes[step - 1] == b"Micro" and modes[step] in (b"Run", b"Idle")]
            if ends:
                items[at].shorten(ends[0])
                break
        else:
            return
        at += 1


def write_deck(items: list[Item], views: bytes, file: IO[bytes]) -> None:
    """Writes the deck that is run, with the marker before each command and block except the first."""
    size = 0
    for at, item in enumerate(items):
        for piece in chain([MARK] if at else [], item.pieces(views)):
            size += len(piece)
            if size > LONGEST_DECK:
                raise too_long()
            file.write(piece)


def too_long() -> Failure:
    """Returns the error for a deck that is too long with the commands of this tool."""
    return Failure(f"with a command for each traced step the deck has more than {LONGEST_DECK:,} bytes: trace fewer steps", 3)


# The output of the bench.

# When a bench has ended that has not ended early.
AT_THE_END = "at the last command"


class EndedEarly(Exception):
    """The bench has ended before it has answered the whole deck. The argument is the number of commands that it has answered."""


class Answers:
    """The lines that the bench prints for the deck, and the number of markers so far."""

    def __init__(self, file: IO[bytes]) -> None:
        """Takes the output of the bench."""
        self.file, self.marks = file, 0

    def line(self) -> str:
        """Returns the next line without its newline."""
        line = self.file.readline()
        if not line.endswith(b"\n"):
            raise EndedEarly(self.marks)
        return line[:-1].decode("latin-1")

    def up_to_mark(self) -> Iterator[bytes]:
        """Yields the lines up to the marker, or up to the end if there is none, with their newlines."""
        held: list[bytes] = []
        for line in self.file:
            if held and line[:-1] == MARK_ANSWER[1]:
                self.marks += 1
                return
            yield from held
            held = [line] if line[:-1] == MARK_ANSWER[0] else []
            if not held:
                yield line
        yield from held


# The line of a step in a function, or at a program line.
STEP = re.compile(r"(?P<mode>Micro|Run|Idle) \S+ (?P<text>.*)")


def explained(line: str, before: Values, after: Values) -> list[str]:
    """Returns the sentence about a step, as a list of one indented line; an empty list if there is none."""
    found = STEP.fullmatch(line)
    if not found:
        return []
    values = dict(before)
    values.update((name.removeprefix("stack ").replace("L", "LAST X"), text_of(digits)) for name, digits in before.items()
                  if name.startswith("stack ") and found[1] != "Micro")
    values["flags"] = " ".join(before["flags"])
    # If flag 25 is set, an error clears it, and there is no message.
    is_over = after["display"] == '"OUT OF RANGE"' or "25" in before["flags"] - after["flags"] if after else None
    sentence = Explained(found[2], values, found[1] == "Micro", after, is_over=is_over).sentence()
    return [f"    {sentence}"] if sentence else []


def tell_trace(steps: int, count: int, answers: Answers, labels: Labels, out: IO[bytes], is_explained: bool) -> bool:
    """Prints a trace of so many steps, with views of `count` lines. Returns whether a step is refused. Such a step changes nothing, and
    the following ones are refused in the same way, so it is printed once."""
    refused, before = False, parts_of([answers.line() for _ in range(count)])
    column = BESIDE + labels.width + (1 if labels.width else 0)
    for _ in range(steps):
        line, first = answers.line(), answers.line()
        refusal = first if first.startswith("! ") else None
        views = [answers.line() if refusal else first, *(answers.line() for _ in range(count - 1))]
        if refused:
            continue
        after = parts_of(views)
        sentence = explained(line, before, after) if is_explained else []
        line = labelled(line, labels)
        told = [line, refusal + labels.behind(refusal)] if refusal else beside(line, changes_of(before, after), column)
        told += sentence
        out.writelines(one.encode("latin-1") + b"\n" for one in told)
        refused, before = refusal is not None, after
    return refused


def pass_on(item: Item, answers: Answers, labels: Labels, out: IO[bytes]) -> bool:
    """Prints the output of a command or block. Returns whether it is refused."""
    line = b""
    for following in answers.up_to_mark():
        out.write(line)
        line = following
    refused = line.startswith(b"! ") and item.words not in NEVER_REFUSED
    if refused or item.words == [b"show", b"pos"]:
        text = line.decode("latin-1").rstrip("\n")
        line = f"{text}{labels.behind(text)}\n".encode("latin-1")
    out.write(line)
    return refused


def tell(items: list[Item], count: int, answers: Answers, labels: Labels, out: IO[bytes], is_explained: bool,
         is_whole_deck: bool = True) -> bool:
    """Prints the output of commands and blocks, with their traces. Returns whether one is refused. The last command of a whole deck has no
    marker."""
    refused = False
    for item in items:
        if item.steps is not None:
            refused |= tell_trace(item.steps, count, answers, labels, out, is_explained)
        refusal = pass_on(item, answers, labels, out)
        if labels.width and not refusal:
            labels.follow(item.lines)
        refused |= refusal
    if is_whole_deck and items and answers.marks != len(items) - 1:
        raise EndedEarly(answers.marks)
    return refused


def carry_out(items: list[Item], views: bytes, count: int, labels: Labels, options: argparse.Namespace,
              out: IO[bytes]) -> tuple[int, int, str]:
    """Runs the deck and prints its output. Returns the status, that of the bench, and when the bench has ended, for a message."""
    when = AT_THE_END
    with tempfile.TemporaryFile() as deck:
        write_deck(items, views, deck)
        deck.seek(0)
        with subprocess.Popen([BENCH, *running(options.memory)], stdin=deck, stdout=subprocess.PIPE) as bench:
            assert bench.stdout is not None
            try:
                status = int(tell(items, count, Answers(bench.stdout), labels, out, options.explain))
            except EndedEarly as early:
                status, when = 3, f"after it answered {early.args[0]} of {len(items)} commands"
            except OSError:
                bench.kill()
                raise
    return status, bench.returncode, when


# A deck that arrives from standard input.

def arriving(file: IO[bytes]) -> Iterator[tuple[list[bytes], bool]]:
    """Yields the lines of each command and block of a deck when it is complete, and whether a marker can follow it: not after a block
    without its end, or a line without its newline."""
    block_lines: list[bytes] = []
    for line in file:
        words = words_of(line)
        if block_lines:
            block_lines.append(line)
            if words != [b"end"]:
                continue
        elif words[:1] and words[0] in OPENERS:
            block_lines = [line]
            continue
        elif is_skipped(line):
            continue
        yield block_lines or [line], line.endswith(b"\n")
        block_lines = []
    if block_lines:
        yield block_lines, False


def send(item: Item, views: bytes, is_whole: bool, file: IO[bytes]) -> None:
    """Writes a command or block for the bench, and the marker after it. The bench may end before it has read all of it."""
    try:
        for piece in item.pieces(views):
            file.write(piece)
        if is_whole:
            file.write(MARK)
        else:
            file.close()
        file.flush()
    except (OSError, ValueError):
        pass


def item_in(lines: list[bytes], before: list[bytes], memory: str) -> Item:
    """Returns a command or block that has arrived after others. Texts in a key line are typed as the state needs it."""
    text = b"".join(lines)
    if words_of(lines[0])[:1] != [b"key"]:
        return Item(lines_of(text))
    return Item(lines_of(with_keys(b"".join(before if b'"' in text else []) + text, memory))[-1:])


def follow(deck: IO[bytes], bench: subprocess.Popen[bytes], views: bytes, count: int, options: argparse.Namespace, out: IO[bytes]) -> bool:
    """Runs a deck as it arrives: each command is answered before the next one is read. Returns whether one is refused."""
    given_to, printed = pipes_of(bench)
    refused, answers, labels, size, total, number, is_whole = False, Answers(printed), Labels(), 0, 0, 0, True
    given: list[bytes] = []
    for number, (lines, is_whole) in enumerate(arriving(deck), 1):
        given.append(b"".join(lines))
        total += len(given[-1])
        if total > LONGEST_DECK:
            raise longer("-", total)
        item = item_in(lines, given[:-1], options.memory)
        size += sum(map(len, item.pieces(views)))
        if size > LONGEST_DECK:
            raise too_long()
        if options.labels and item.words[:1] == [b"asm"]:
            labels.width = max(labels.width, Labels(item.lines).width)
        writer = Thread(target=send, args=(item, views, is_whole, given_to))
        writer.start()
        refused |= tell([item], count, answers, labels, out, options.explain, False)
        out.flush()
        writer.join()
    if answers.marks != number - (not is_whole):
        raise EndedEarly(answers.marks)
    return refused


def carry_out_arriving(views: bytes, count: int, options: argparse.Namespace, out: IO[bytes]) -> tuple[int, int, str]:
    """Runs the deck that arrives from standard input, and prints its output as it goes. Returns what `carry_out` returns."""
    when = AT_THE_END
    with subprocess.Popen([BENCH, *running(options.memory)], stdin=subprocess.PIPE, stdout=subprocess.PIPE) as bench:
        try:
            status = int(follow(sys.stdin.buffer, bench, views, count, options, out))
        except EndedEarly as early:
            status, when = 3, f"after it answered {early.args[0]} command{'s' * (early.args[0] != 1)}"
        except (OSError, Failure):
            bench.kill()
            raise
        if bench.stdin and not bench.stdin.closed:
            bench.stdin.close()
    return status, bench.returncode, when


def read_options(words: list[str]) -> argparse.Namespace:
    """Parses the command line."""
    parser = Parser(prog="trace", add_help=False, allow_abbrev=False,
                    usage="tools/trace [--memory N] [--labels] [--function] [--explain] [--watch HHH].. DECK")
    parser.add_argument("--memory", choices=MEMORIES, default=MEMORY)
    parser.add_argument("--labels", action="store_true")
    parser.add_argument("--function", action="store_true")
    parser.add_argument("--explain", action="store_true")
    parser.add_argument("--watch", action="append", default=[], metavar="HHH")
    parser.add_argument("deck", metavar="DECK")
    options = parser.parse_args(words)
    for address in options.watch:
        if not re.fullmatch("[0-9A-Fa-f]{3}", address):
            parser.error(f"--watch {address}: expected an address of three hexadecimal digits")
    return options


def is_built() -> bool:
    """Returns whether the program is built. Without it the bench reads the whole deck before it answers."""
    try:
        want_program()
    except Failure:
        return False
    return True


def main(words: list[str]) -> int:
    """Runs the deck, and prints its output with the changes. Returns the status."""
    if words in (["-h"], ["--help"]):
        print(__doc__.strip())
        return 0
    options = read_options(words)
    watched = list(dict.fromkeys(address.upper().encode() for address in options.watch))
    views = b"".join(view + b"\n" for view in [*VIEWS, *(b"show ram " + address for address in watched)])
    count, out = sum(VIEWS.values()) + len(watched), sys.stdout.buffer
    if options.deck == "-" and not options.function and is_built():
        status, of_bench, when = carry_out_arriving(views, count, options, out)
    else:
        items = items_in(options.deck, options.memory)
        labels = Labels(line for item in items if item.words[:1] == [b"asm"] for line in item.lines if options.labels)
        if options.function:
            end_with_functions(items, options.deck, options.memory)
        status, of_bench, when = carry_out(items, views, count, labels, options, out)
    if of_bench == NO_ANSWER:
        raise Failure("./bench gave no answer: see its message above", NO_ANSWER)
    if of_bench not in (0, 1) or status > 1:
        raise Failure(f"{options.deck}: {ended(of_bench, when)}", 3)
    return status
