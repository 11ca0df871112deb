"""What the scripts of .ci/ for tools/import share: they run it, and judge its decks and its messages."""
import re
import tempfile
from collections.abc import Mapping, Sequence
from typing import Literal

from judging import Data, Jobs, Ran, fill, judge, output_of, tool

from hp41.doubts import DOUBTFUL, Doubt, summed

jobs = Jobs()

# Parts of messages.
NUMBERS = "the line numbers"
LEFT_OUT = "not supported, so these lines are refused when they are executed: "
CALLS = "calls a label of that name if memory has one, otherwise the function"
NAMES = "labels that no keys can call (keys type at most 7 letters): "

# A module as words with its functions, and another one as a source.
KIT = [0x005, 0x002, 0x000, 0x00B, 0x000, 0x010, 0x000, 0x000, 0x094, 0x009, 0x00B, 0x3E0,
       0x08C, 0x00C, 0x009, 0x00B, 0x3E0]
FUNCTIONS = ["XROM 05,00 KIT", "XROM 05,01 KILL"]
SOURCE = 'CON 005\nCON 001\nENTRY :A\nCON 000\nCON 000\nNAME "A"\nA: RTN\n'


def imported(words: list[str], files: Mapping[str, Data], given: Data = b"") -> Ran:
    """Returns what tools/import does with these words in a folder that has these files."""
    with tempfile.TemporaryDirectory() as room:
        fill(room, files)
        return tool("import", words, room, given)


def shown(deck: bytes, *commands: str) -> list[str]:
    """What the bench prints for a deck followed by these commands."""
    return output_of(deck + "".join(f"{command}\n" for command in commands).encode())


def lines_in(deck: bytes) -> list[str]:
    """The lines of the programs that a deck loads."""
    return [line[5:] for line in shown(deck, "show lines")[:-1]]


@jobs.row
def reports(name: str, text: str, wanted: list[str], told: list[str], words: Sequence[str] = ()) -> None:
    """A listing is read as these lines, with exactly these messages."""
    ran = imported([*words, "x.txt"], {"x.txt": text})
    judge(ran.returncode == 0 and lines_in(ran.stdout) == wanted, name, (lines_in(ran.stdout), ran.stderr.decode()))
    wanted = [f"import: {line}" for line in [*told, *state_of(told)]]
    judge(ran.stderr.decode().splitlines() == wanted, f"{name}, told", ran.stderr.decode())


def state_of(told: list[str]) -> list[str]:
    """The line after the doubts that says the state; none if there is no doubt."""
    found = [re.fullmatch(r"x\.txt:([0-9]+):([0-9]+): doubt: (.*) \[([a-z-]+)\]", line) for line in told]
    doubts = [Doubt(one[4], int(one[1]), int(one[2]), one[3]) for one in found if one]
    return [f"x.txt: {DOUBTFUL}: {summed(doubts)}; --accept NAME accepts the doubts of a name"] if doubts else []


def doubt(name: str, line: int, column: int, text: str) -> str:
    """The line of a doubt about x.txt."""
    return f"x.txt:{line}:{column}: doubt: {text} [{name}]"


def nowhere(line: int, column: int, text: str) -> str:
    """The line of a doubt about a call that leads nowhere."""
    own = "" if '"' in text else " of its program"
    return doubt("call", line, column, f"{text} (leads nowhere: no line{own} is LBL {text[4:]})")


def of_module(line: int, text: str) -> str:
    """The line of a doubt about a function of a module that is not given."""
    return doubt("module", line, 4, f"{text} (a function of a module that is not given with this file)")


@jobs.row
def fails(name: str, words: list[str], files: Mapping[str, Data], *told: str, status: int = 1) -> None:
    """There is no deck, and standard error has these texts."""
    ran = imported(words, files)
    error = ran.stderr.decode()
    missing = [text for text in told if text not in error]
    judge(ran.returncode == status and ran.stdout == b"" and not missing, name, (ran.returncode, missing, error))


@jobs.row
def makes(name: str, words: list[str], files: Mapping[str, Data], commands: list[str], wanted: list[str], *told: str) -> None:
    """There is a deck that, followed by these commands, prints these lines, and standard error has only these texts."""
    ran = imported(words, files)
    error = ran.stderr.decode()
    missing = [text for text in told if text not in error]
    found = shown(ran.stdout, *commands)
    lines = [line for line in error.splitlines() if f": {DOUBTFUL}: " not in line]
    judge(ran.returncode == 0 and found == wanted and not missing and len(lines) == len(told), name,
          (ran.returncode, found, missing, error))


def image(words: list[int], order: Literal["big", "little"] = "big") -> bytes:
    """Returns the bytes of an image."""
    return b"".join(word.to_bytes(2, order) for word in words).ljust(8192, b"\0")


def listed(words: list[int], first: int = 0x8000) -> list[str]:
    """What the bench lists for words that begin at an address."""
    opener, front = f"words {first >> 12:X}", ["0"] * (first & 0xFFF)
    block = "\n".join([opener, *front, *(f"{word:03X}" for word in words), "end", ""])
    return shown(block.encode(), f"list {first:04X} {len(words)}")
