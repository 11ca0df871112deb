"""Work that is divided among cores, machines or the jobs of a batch system: for tools/check, tools/catalogue and tools/play --script. The
work is a list of items; share I of N has every Nth item from the Ith on. A part is the results of a share, as a text: a line that says
which share it is, and a line of JSON for each item. Parts are joined in the order of the items."""
import contextlib
import json
import os
import re
import shlex
import shutil
import subprocess
import sys
import tempfile
from concurrent.futures import ProcessPoolExecutor
from typing import Any, Callable, Dict, Iterator, List, NamedTuple, Optional, Sequence, Tuple, TypeVar

from . import TOOLS
from .decks import MARK_OF_UTF8, Failure, bytes_of
from .matches import whole

Item = TypeVar("Item")
Result = TypeVar("Result")

HEAD = re.compile(r"share ([0-9]+)/([0-9]+) of ([0-9]+) items by (\w+)")
PARALLEL = "parallel"

# So many shares each machine gets, so that a fast one can do more of them, and so wide is the bar of progress.
SHARES_OF_A_MACHINE, BAR = 4, 40

# How often a share is tried, each time on another machine if there is one.
TRIES = 3


class Progress:
    """A bar on standard error, if that is a terminal."""

    def __init__(self, count: int, what: str, may_be_shown: bool = True) -> None:
        """Takes the number of items, and what they are."""
        self.count, self.what, self.done, self.is_shown = count, what, 0, may_be_shown and sys.stderr.isatty()

    def add(self, count: int) -> None:
        """Shows that so many more items are done."""
        self.done += count
        if self.is_shown:
            full = BAR * self.done // max(self.count, 1)
            bar = f"[{'#' * full}{'.' * (BAR - full)}] {self.done:,} of {self.count:,} {self.what}"
            print(f"\r{bar}", end="", file=sys.stderr, flush=True)

    def end(self) -> None:
        """Removes the bar."""
        if self.is_shown:
            print("\r\033[K", end="", file=sys.stderr, flush=True)


class Share(NamedTuple):
    """Share `number` of `of` shares, counted from 1."""

    number: int
    of: int

    def own(self, items: Sequence[Item]) -> List[Item]:
        """Returns the items of this share."""
        return list(items[self.number - 1::self.of])


def share_of(text: str) -> Share:
    """Returns the share of an option I/N."""
    found = re.fullmatch("([0-9]{1,6})/([0-9]{1,6})", text)
    if not found or not 1 <= int(found[1]) <= int(found[2]):
        raise Failure(f"--shard {text}: expected I/N, for example 2/10, with I from 1 to N", 2)
    return Share(int(found[1]), int(found[2]))


def workers_of(text: str) -> Tuple[int, List[str]]:
    """Returns the number of processes of an option, or one for each core, and the machines that it names."""
    if text.isdecimal():
        if not 1 <= int(text) <= 9999:
            raise Failure(f"--workers {text}: expected a number from 1 to 9999, or names of machines separated by commas", 2)
        return int(text), []
    names = text.split(",")
    wrong = next((name for name in names if not re.fullmatch(r"(?:[0-9]+/)?(?::|[A-Za-z0-9_][\w.@:-]*)", name)), None)
    if wrong is not None:
        found = f"found the name '{wrong}', " if names[1:] else ""
        raise Failure(f"--workers {text}: {found}expected a number, or names of machines separated by commas, for example ann@one,ann@two", 2)
    return cores(), names


def cores() -> int:
    """Returns the number of cores that may be used."""
    return len(os.sched_getaffinity(0))


def option_in(words: List[str], name: str, read: Callable[[str], Result]) -> Tuple[Optional[Result], List[str]]:
    """Returns the value of an option in the words of a command line, or None, and the other words."""
    if name not in words:
        return None, words
    at = words.index(name)
    others = words[:at] + words[at + 2:]
    if not words[at + 1:] or name in others:
        raise Failure(f"{name}: found {'it twice' if name in others else 'nothing after it'}, expected it once, with a value", 2)
    return read(words[at + 1]), others


def spread(work: Callable[[List[Item]], List[Result]], items: Sequence[Item], workers: int, together: int,
           what: str, has_bar: bool = True) -> Iterator[Result]:
    """Yields the results of items in their order. `work` gets at most `together` items at a time; processes share them."""
    together = max(1, min(together, -(-len(items) // (2 * workers))))
    parts = [list(items[at:at + together]) for at in range(0, len(items), together)]
    progress = Progress(len(items), what, has_bar)
    pool = processes(min(workers, len(parts)))
    try:
        with pool or contextlib.nullcontext():
            for part, found in zip(parts, pool.map(work, parts) if pool else map(work, parts)):
                progress.add(len(part))
                yield from found
    finally:
        progress.end()


def processes(count: int) -> Optional[ProcessPoolExecutor]:
    """Returns processes that share work. None if one process is enough, or if the system has no memory that processes share (for example
    because /dev/shm cannot be written), so that this process does all."""
    try:
        return ProcessPoolExecutor(count) if count > 1 else None
    except (ImportError, NotImplementedError, PermissionError, FileNotFoundError):
        return None


# Parts.

def part_text(tool: str, share: Share, count: int, results: Sequence[object]) -> str:
    """Returns the part of a share, of `count` items in all."""
    head = f"share {share.number}/{share.of} of {count} items by {tool}"
    return "".join(f"{line}\n" for line in [head, *(json.dumps(result, ensure_ascii=True) for result in results)])


def results_in(tool: str, parts: List[Tuple[str, str]]) -> List[Any]:
    """Returns the results of all items in their order, from parts with their names. Raises Failure if a part is missing or incomplete."""
    found: Dict[int, List[Any]] = {}
    first: Optional[Tuple[int, int]] = None
    for path, text in parts:
        for share, count, results in shares_in(tool, path, text):
            first = first or (share.of, count)
            if first != (share.of, count):
                raise Failure(f"{path}: found share {share.number}/{share.of} of {count} items, expected shares of the same work, "
                              f"I/{first[0]} of {first[1]} items")
            if share.number in found:
                raise Failure(f"{path}: found share {share.number}/{share.of} a second time, expected each share once")
            found[share.number] = results
    of, count = first or (1, 0)
    missing = [f"{number}/{of}" for number in range(1, of + 1) if number not in found]
    if missing:
        raise Failure(f"found {of - len(missing)} of {of} shares, expected all: share{'s' * (len(missing) > 1)} {', '.join(missing[:4])} "
                      f"{'and others are' if missing[4:] else 'is' if len(missing) == 1 else 'are'} missing")
    return [found[at % of + 1][at // of] for at in range(count)]


def shares_in(tool: str, path: str, text: str) -> Iterator[Tuple[Share, int, List[Any]]]:
    """Yields each share in a text, which may have several: the number of items in all, and its results."""
    if not text:
        raise Failure(f"{path}: the file is empty, expected the output of tools/{tool} --shard I/N")
    lines = text.split("\n")
    heads = [at for at, line in enumerate(lines) if HEAD.fullmatch(line)]
    if not heads or heads[0]:
        raise Failure(f"{path}:1: `{lines[0][:200]}`: expected the output of tools/{tool} --shard I/N")
    for at, after in zip(heads, [*heads[1:], len(lines)]):
        number, of, count, by = whole(HEAD, lines[at]).groups()
        share = Share(int(number), int(of))
        own = [(place, line) for place, line in enumerate(lines[at + 1:after], at + 2) if line]
        wanted = len(range(int(count))[share.number - 1::share.of])
        if by != tool:
            raise Failure(f"{path}:{at + 1}: found a share of tools/{by}, expected one of tools/{tool}")
        if len(own) != wanted:
            raise Failure(f"{path}:{at + 1}: found {len(own)} result{'' if len(own) == 1 else 's'}, expected {wanted}: run this share "
                          "again")
        yield share, int(count), [result_in(path, place, line) for place, line in own]


def result_in(path: str, place: int, line: str) -> Any:
    """Returns the result in a line of a part."""
    try:
        return json.loads(line)
    except ValueError as error:
        raise Failure(f"{path}:{place}: `{line[:200]}`: expected a result in JSON, on one line: run this share again") from error


def joined(tool: str, paths: List[str]) -> List[Any]:
    """Returns the results of all items, from the files of parts."""
    return results_in(tool, [(path, bytes_of(path).removeprefix(MARK_OF_UTF8).decode("utf-8", "replace")) for path in paths])


# Machines.

def by_machines(tool: str, words: List[str], machines: List[str], what: str) -> List[Any]:
    """Returns the results of all items. GNU parallel runs the shares on machines; each has the same files at the same paths."""
    parallel = shutil.which(PARALLEL)
    if parallel is None:
        raise Failure("--workers with names of machines needs GNU parallel, which is not installed: install it, or use --shard I/N")
    of = SHARES_OF_A_MACHINE * len(machines)
    path = os.path.join(TOOLS, tool)
    jobs = "\0".join(shlex.join([path, "--shard", f"{number}/{of}", *words]) for number in range(1, of + 1))
    command = [parallel, "--will-cite", "--null", "--keep-order", "--jobs", "1", "--retries", str(TRIES), "--workdir", os.getcwd(),
               "--sshlogin", ",".join(machines)]
    progress, lines = Progress(of, what), []
    try:
        # (in a file, because GNU parallel may end before it has read a pipe)
        with tempfile.TemporaryFile() as given:
            given.write(jobs.encode())
            given.seek(0)
            # (without SHELL and PARALLEL_SHELL it executes nothing, and ends with status 0)
            with subprocess.Popen(command, stdin=given, stdout=subprocess.PIPE, env=os.environ | {"PARALLEL_SHELL": "/bin/sh"}) as ran:
                for line in ran.stdout or ():
                    lines.append(line.decode("utf-8", "replace"))
                    progress.add(int(HEAD.fullmatch(lines[-1].rstrip("\n")) is not None))
    finally:
        progress.end()
    if ran.returncode:
        raise Failure(f"GNU parallel ended with status {ran.returncode}: {ran.returncode if ran.returncode <= 100 else 'some'} of {of} "
                      "shares failed: see the messages above")
    return results_in(tool, [("GNU parallel", "".join(lines))])
