"""Runs the decks of a folder and compares their output with the expected output in the files beside them.

usage: tools/check [--memory N] [--workers N|MACHINE,..] FOLDER
       tools/check [--memory N] --shard I/N FOLDER
       tools/check --join PART ..

NAME.deck must print exactly the bytes of NAME.deck.stdout in the same folder. Its status must be 1 if the expected output has a
refusal, which is a line that begins with "! ", and 0 otherwise.

  --memory N   runs the decks with N registers of memory: 64, 128, 192, 256 or 320
  --workers N  so many decks run at the same time; the default is one for each core. With names of machines, such as
               ann@one,ann@two, GNU parallel runs shares of the decks there by ssh; they need the same files at the same paths
  --shard I/N  prints the results of share I of N, counted from 1, for a batch system. The status is 0 if all of them are printed
  --join       joins the output of all N shares, which are files, in the order of the decks

The results are printed in the Test Anything Protocol: 1..N, and for each deck "ok 1 - NAME" or "not ok 1 - NAME". Lines that
begin with "#" follow the latter: the first line that differs, and a wrong status.

If the proved program is not built, `rt try` runs all decks together, which takes about two minutes.

Status 0: all decks are ok. 1: a deck is not ok. 2: the command line is wrong, or the folder has no decks. 3: the results cannot
be written. 70: the bench gave no answer."""
import os
import shutil
import signal
import subprocess
import sys
from functools import partial
from typing import Any, Iterable, Iterator, NoReturn, Optional

from .. import TOP
from ..decks import MEMORY, Failure, differences, escape_output, lines_of, memory_in, running, with_keys
from ..shares import by_machines, cores, joined, option_in, part_text, share_of, spread, workers_of
from ..unproved import NoAnswer, answers

BENCH = os.path.join(TOP, "bench")

DECK = ".deck"
BESIDE = ".stdout"
NO_ANSWER = 70

# So many decks a process gets at a time.
TOGETHER = 8


# The status of a deck and its two outputs; the name of a deck, and the reasons why it is not ok.
Answer = tuple[int, bytes, bytes]
Result = tuple[str, list[str]]


def shown(line: Optional[bytes]) -> str:
    """Returns a line as it is printed in a comment."""
    if line is None:
        return "no line"
    text = line.decode(errors="backslashreplace").replace("\r\n", "\\r\n")
    return text[:-1] if text.endswith("\n") else f"{text} (without a newline)"


def first_difference(wanted: bytes, output: bytes) -> list[str]:
    """Returns two comments about the first line that differs; none if the outputs are equal."""
    for number, want, found in differences(wanted, output):
        return [f"line {number}: found    {shown(found)}", f"line {number}: expected {shown(want)}"]
    return []


def answer_of(deck: str, memory: str) -> Answer:
    """Runs a deck. Returns its status, standard output and standard error. If its key lines contain texts or numbers, the bench gets the
    names of the keys."""
    try:
        with open(deck, "rb") as file:
            lines = file.read()
    except OSError:
        lines = b""
    named = with_keys(lines, memory)
    words = running(memory)
    if named == lines:
        ran = subprocess.run([BENCH, *words[:-1], "--", deck], stdin=subprocess.DEVNULL, capture_output=True)
    else:
        ran = subprocess.run([BENCH, *words], input=named, capture_output=True)
    return ran.returncode, ran.stdout, ran.stderr


def faults_of(deck: str, answer: Optional[Answer]) -> list[str]:
    """Returns the reasons why a deck is not ok, a line each; none if it is ok."""
    try:
        with open(deck + BESIDE, "rb") as file:
            wanted = file.read()
    except OSError as error:
        return [f"{os.path.basename(deck)}{BESIDE}: cannot be read: {error.strerror}"]
    if not answer:
        try:
            with open(deck, "rb") as file:
                file.read(1)
        except OSError as error:
            return [f"no answer: the deck cannot be read: {error.strerror}"]
        return ["no answer: the deck runs or prints too long for rt try: build the program with ./bench prove"]
    found, output, told = answer
    status = 1 if any(line.startswith(b"! ") for line in lines_of(wanted)) else 0
    faults = first_difference(wanted, output)
    if found != status:
        faults.append(f"exit status: found {found}, expected {status}")
    if faults:
        faults += [f"standard error: {line}" for line in told.decode(errors="backslashreplace").splitlines()]
    return faults


def stop(why: object, status: int) -> NoReturn:
    """Prints an error, and ends the tool."""
    print(f"check: {why}", file=sys.stderr)
    sys.exit(status)


def decks_of(folder: str) -> list[str]:
    """Returns the paths of the decks in a folder, sorted by name."""
    try:
        names = sorted(os.listdir(folder))
    except OSError as error:
        stop(f"{folder}: cannot be read: {error.strerror}; expected a folder of decks", 2)
    decks = [os.path.join(folder, name) for name in names if name.endswith(DECK)]
    return decks or stop(f"{folder}: no decks here: the name of a deck ends in {DECK}", 2)


def judged(decks: list[str], memory: str) -> list[Result]:
    """Runs decks. Returns for each its name and the reasons why it is not ok."""
    return [result_of(deck, answer_of(deck, memory)) for deck in decks]


def result_of(deck: str, answer: Optional[Answer]) -> Result:
    """Returns the name of a deck, and the reasons why it is not ok."""
    return os.path.basename(deck)[: -len(DECK)], faults_of(deck, answer)


def results(decks: list[str], memory: str, workers: int) -> Iterator[Result]:
    """Yields the results of decks, which processes share. Without the proved program, `rt try` runs all of them together."""
    # The launcher prints on standard error if nothing is proved.
    way = subprocess.run([BENCH, "prove", "--check"], stdin=subprocess.DEVNULL).returncode
    if way == NO_ANSWER:
        sys.exit(NO_ANSWER)
    if way == 0 or not shutil.which("rt"):
        yield from spread(partial(judged, memory=memory), decks, workers, TOGETHER, "decks", not sys.stdout.isatty())
        return
    try:
        found = answers(decks, memory)
    except NoAnswer as why:
        stop(why, NO_ANSWER)
    yield from (result_of(deck, (*answer, b"") if answer else None) for deck, answer in zip(decks, found))


def report(count: int, found: Iterable[Any]) -> int:
    """Prints results in the Test Anything Protocol. Returns the status."""
    escape_output()
    signal.signal(signal.SIGPIPE, signal.SIG_DFL)
    print(f"1..{count}")
    failed = False
    for number, (name, faults) in enumerate(found, 1):
        name = name.replace("#", "\\#")
        print(f"{'not ok' if faults else 'ok'} {number} - {name}", *faults, sep="\n# ", flush=True)
        failed = failed or bool(faults)
    return int(failed)


def main(words: list[str]) -> int:
    """Runs the decks, or joins results. Returns the status."""
    if words in (["-h"], ["--help"]):
        print(__doc__.strip())
        return 0
    memory = MEMORY
    try:
        if "--memory" in words:
            memory, words = memory_in(words)
        shard, words = option_in(words, "--shard", share_of)
        given, words = option_in(words, "--workers", workers_of)
        workers, machines = given or (cores(), [])
        if words[:1] == ["--join"] and words[1:]:
            found = joined("check", words[1:])
            return report(len(found), found)
    except Failure as why:
        stop(why, why.status)
    if len(words) != 1:
        asked = f"`{' '.join(words)}`" if words else "nothing"
        stop(f"found {asked}, expected one folder of decks: tools/check [--memory N] FOLDER", 2)
    decks = decks_of(words[0])
    if shard:
        own = shard.own(decks)
        print(part_text("check", shard, len(decks), list(results(own, memory, workers))), end="")
        return 0
    if machines:
        return report(len(decks), by_machines("check", ["--memory", memory, words[0]], machines, "shares"))
    return report(len(decks), results(decks, memory, workers))
