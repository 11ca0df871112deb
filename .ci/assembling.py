"""What the scripts of .ci/ for sources share: they run a tool on a source, and judge its output and its messages."""
import tempfile
from collections.abc import Callable, Iterable
from typing import Optional

from judging import Data, judge, put, tool

from hp41.sources import Assembled, Faulty


def tried(words: list[str], source: Optional[Data] = None) -> tuple[str, str, int]:
    """Returns what a tool writes to standard output and error, and its status, with the source in a file s.asm."""
    with tempfile.TemporaryDirectory() as room:
        if source is not None:
            put(f"{room}/s.asm", source)
        ran = tool(words[0], words[1:], room)
    return ran.stdout.decode(), ran.stderr.decode(), ran.returncode


def row(name: str, words: list[str], source: Data, wanted: str, status: int = 0) -> None:
    """A tool, a source, and all that it prints."""
    told = tried([*words, "s.asm"], source)
    judge(told == (wanted, "", status), name, f"{told[2]}:\n{told[0]}{told[1]}and not\n{wanted}")


def told_of(source: Data, findings: Optional[Callable[[Assembled], Iterable[str]]] = None) -> list[str]:
    """The messages for a source s.asm, or if it has no errors, what else is found."""
    with tempfile.TemporaryDirectory() as room:
        put(f"{room}/s.asm", source)
        try:
            assembled = Assembled(f"{room}/s.asm", "8")
            found = list(findings(assembled)) if findings else []
        except Faulty as why:
            found = str(why).split("\n")
    return [line.removeprefix(f"{room}/") for line in found]


def errors(name: str, source: Data, *wanted: tuple[str, ...]) -> None:
    """A source with errors, and exactly the messages for it."""
    told = told_of(source)
    judge(told == [": ".join([head, *filter(None, ["; ".join(causes)])]) for head, *causes in wanted], name, "\n".join(told))


def ends(name: str, words: list[str], status: int, why: str, source: Optional[Data] = None) -> None:
    """A command line, its status, and what standard error has."""
    output, error, found = tried(words, source)
    judge((output, found) == ("", status) and why in error, name, f"{found}: {output}{error}")
