"""Answers of the unproved program: `rt try` compiles it with checks and runs it. The answers are those of the program; only its running
time, input and output are limited."""
import contextlib
import os
import re
import secrets
import signal
import subprocess
import sys
import tempfile
from typing import IO, Iterator, NoReturn, Optional, Union

from . import TOP
from .decks import MEMORY, running, with_keys

CRATE = f"{TOP}/crates/h41_bench"

# The most bytes of input that rt accepts, and the longest run in seconds, chosen so that there is an answer within two minutes.
LONGEST_INPUT = 67_108_864
SECONDS = 30

# A name that no file has. It replaces the name of a file that cannot be read, so that the program itself reports the error. The reason
# that the system gives for this name is removed.
NO_FILE = "/dev/null/no-such-file"
CAUSE = re.compile(rb"^bench: %s: .*\n" % NO_FILE.encode(), re.M)

# The last lines of rt if the program has ended, and its reason if it has not.
ENDED = re.compile(rb"^checked: ended .*\n(?:.*\n)*?run=ended status=(\d+) .*proved=no\n\Z", re.M)
NO_ANSWER = re.compile(rb"^checked: no-answer: (.*)", re.M)
REASONS = {
    b"wrote more than": "the output has more than 1,048,576 bytes, the limit of rt try",
    b"did not end within": f"the run takes more than {SECONDS} seconds in the slow build of rt try",
}
CASE = re.compile(rb"^case=(\S+) run=ended status=(\d+) .*\n", re.M)


class NoAnswer(Exception):
    """The reason why rt try gives no answer."""


@contextlib.contextmanager
def no_answer_without_room() -> Iterator[None]:
    """Turns errors of this machine, such as a full disk, into reasons why there is no answer."""
    try:
        yield
    except OSError as error:
        raise NoAnswer(f"{error.filename or 'a temporary file'}: {error.strerror}") from error


def place_of_file(words: list[str]) -> Optional[int]:
    """Returns the position of the input file among the words; None if there is none."""
    at = None
    if words[:1] and words[0] in ("run", "asm", "dis"):
        hyphens_end, skipped = False, False
        for place, word in enumerate(words[1:], 1):
            if skipped or not hyphens_end and word == "--":
                hyphens_end, skipped = hyphens_end or not skipped, False
            elif not hyphens_end and word in ("--memory", "--origin"):
                skipped = True
            elif hyphens_end or word == "-" or not word.startswith("-"):
                at = place
    return at


def copied(name: str, to: IO[bytes]) -> bool:
    """Copies all the input to a file, because rt waits only two seconds for a pipe. Returns whether it could be read."""
    size = 0
    if name == "-" and sys.stdin is None:
        return False
    try:
        source = os.fdopen(os.dup(0) if name == "-" else os.open(name, os.O_RDONLY), "rb", 0)
    except OSError:
        return False
    with source:
        while True:
            try:
                part = source.read(1 << 20)
            except OSError:
                return False
            if not part:
                break
            to.write(part)
            size += len(part)
            if size > LONGEST_INPUT:
                raise NoAnswer(f"{'standard input' if name == '-' else name} has more than {LONGEST_INPUT:,} bytes, the limit of rt try")
    to.seek(0)
    return True


def rt_try(words: list[str], given: Union[int, IO[bytes]]) -> tuple[int, bytes, bytes]:
    """Runs rt try. Returns its status and both outputs. If this process is ended by a signal, it ends too."""
    with tempfile.TemporaryFile() as output, tempfile.TemporaryFile() as told:
        rt = subprocess.Popen(["rt", "try", "--seconds", str(SECONDS), *words], cwd=CRATE, stdin=given, stdout=output, stderr=told)

        def end(number: int, _: object) -> NoReturn:
            """Ends this process after a signal."""
            raise SystemExit(128 + number)

        before = {number: signal.signal(number, end) for number in (signal.SIGINT, signal.SIGTERM, signal.SIGHUP)}
        try:
            rt.wait()
        except SystemExit:
            # (not in the handler: the wait that it interrupts has a lock)
            rt.terminate()
            rt.wait()
            raise
        for number, was in before.items():
            signal.signal(number, was)
        output.seek(0)
        told.seek(0)
        return rt.returncode, output.read(), told.read()


def reason_of(status: int, told: bytes) -> str:
    """Returns the reason why the program has not ended, from the status and the messages of rt."""
    why = NO_ANSWER.search(told)
    if why:
        return next((ours for theirs, ours in REASONS.items() if theirs in why[1]), why[1].decode(errors="replace"))
    if not told.strip():
        return f"rt try printed no message and {f'was ended by signal {-status}' if status < 0 else f'ended with status {status}'}"
    return "rt try failed:\n" + told.decode(errors="replace").rstrip()


@no_answer_without_room()
def answer(words: list[str]) -> tuple[int, bytes, bytes]:
    """Returns the answer of the program to the words of a command line: its status and both outputs."""
    words = list(words)
    at = place_of_file(words)
    with tempfile.TemporaryFile() as given:
        if at is not None:
            words[at] = "-" if copied(words[at], given) else NO_FILE
        status, output, told = rt_try(["--", *words], given)
    ended = ENDED.search(told)
    if not ended:
        raise NoAnswer(reason_of(status, told))
    return int(ended[1]), output, CAUSE.sub(b"", told[:ended.start()])


@no_answer_without_room()
def answers(decks: list[str], memory: str = MEMORY) -> list[Optional[tuple[int, bytes]]]:
    """Returns the answers of the program to some decks, which are files: the status and the output of each; None if a file cannot be read
    or there is no answer. The program is compiled only once."""
    mark = secrets.token_hex(16)
    with tempfile.TemporaryDirectory() as room:
        names = [f"{mark}-{number}" for number in range(len(decks))]
        for name, deck in zip(names, decks):
            with open(f"{room}/{name}", "w+b") as file:
                is_whole = copied(deck, file)
                # In key lines, the bench gets the names of keys for texts and numbers.
                named = with_keys(file.read(), memory)
                file.seek(0)
                file.truncate()
                file.write(named)
            if not is_whole:
                os.remove(f"{room}/{name}")
        status, output, told = rt_try(["--cases", room, "--", *running(memory)], subprocess.DEVNULL)
    statuses = {name.decode(): int(status) for name, status in CASE.findall(told)}
    if not statuses:
        raise NoAnswer(reason_of(status, told))
    parts = re.split(rb"^== (%s-\d+)\n" % mark.encode(), output, flags=re.M)
    written = dict(zip((name.decode() for name in parts[1::2]), parts[2::2]))
    return [(statuses[name], written.get(name, b"")) if name in statuses else None for name in names]
