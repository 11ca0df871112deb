"""Functions that several tools use: reading the lines, commands and blocks of a deck, and running the bench."""
import io
import os
import re
import signal
import subprocess
import sys
from itertools import zip_longest
from typing import Iterable, Iterator, NamedTuple, Optional, Union

from . import TOP
from .typed import NoKeys, Text, is_spelled, keys_of, pieces_of

BENCH = os.path.join(TOP, "bench")

# Words that begin a block if they are the first word of a line. The block ends with its line `end`.
OPENERS = {b"words", b"image", b"asm", b"load", b"program"}

# The byte order mark of a text in UTF-8, and those of texts in UTF-16.
MARK_OF_UTF8 = b"\xef\xbb\xbf"
MARKS_OF_UTF16 = (b"\xff\xfe", b"\xfe\xff")

LONGEST_LINE = 200
LONGEST_DECK = 67_108_864

# The numbers of registers that memory can have, and the default.
MEMORIES = ("64", "128", "192", "256", "320")
MEMORY = "320"
MAIN_START = 0xC0

# The status of the launcher if there is no answer.
NO_ANSWER = 70

# The marker: lines that are put before each command, and their output. No command prints these two lines in a row.
MARK = b"?\nstep ?\n"
MARK_ANSWER = [b"! 50 BadCommand", b"! 51 BadNumber"]

# The refusal of a key that is not supported in the current state, and the flags of ALPHA and USER.
KEY_NOT_HELD, ALPHA_FLAG, USER_FLAG = b"! 18 KeyNotHeld", b"48", b"27"

# Commands that print a text from the deck, which may look like a refusal. They are never refused.
NEVER_REFUSED = ([b"show", b"alpha"], [b"show", b"display"])

# Why memory can be wrong after a deck, and how to go on.
OVERWRITTEN = "microcode of the deck has overwritten it; `watch 00D` in tools/debug finds the instruction"


class Failure(Exception):
    """The reason why a tool ends with an error, and its exit status."""

    def __init__(self, why: str, status: int = 1) -> None:
        """Takes the message and the exit status."""
        super().__init__(why)
        self.status = status

    def __reduce__(self) -> tuple[type, tuple[str, int]]:
        """Lets another process raise the same failure."""
        return type(self), (str(self), self.status)


class Answer(NamedTuple):
    """The lines that a command or block has printed. Its first and its last line are counted from 0."""
    first: int
    last: int
    lines: list[bytes]


class Refusal(NamedTuple):
    """The refusal of a command or block. Its first and its last line are counted from 0."""
    first: int
    last: int
    refusal: str


def bytes_of(path: str) -> bytes:
    """Returns the bytes of a file; `-` is standard input."""
    try:
        if path == "-":
            return sys.stdin.buffer.read()
        with open(path, "rb") as file:
            return file.read()
    except OSError as error:
        raise Failure(f"{path}: cannot be read: {error.strerror}") from error


def escape_output() -> None:
    """Prints characters that standard output cannot encode as escapes."""
    if isinstance(sys.stdout, io.TextIOWrapper):
        sys.stdout.reconfigure(errors="backslashreplace")


def end_with_reader() -> None:
    """Lets the tool end silently when the reader of its output has ended. This must not be called earlier, because the bench may end
    before it has read all its input."""
    signal.signal(signal.SIGPIPE, signal.SIG_DFL)


def lines_of(deck: bytes) -> list[bytes]:
    """Returns the lines of a deck with their newlines; the last line may have none."""
    return re.findall(rb"[^\n]*\n|[^\n]+", deck)


def text_of(line: bytes) -> bytes:
    """Returns a line without its line end, LF or CR LF."""
    return re.sub(rb"\r?\n\Z", b"", line)


def words_of(line: bytes) -> list[bytes]:
    """Returns the words of a line; none if the line is too long."""
    text = text_of(line)
    return re.findall(rb"[^ \t]+", text) if len(text) <= LONGEST_LINE else []


def is_skipped(line: bytes) -> bool:
    """Returns whether a line is a comment or empty."""
    text = text_of(line)
    return len(text) <= LONGEST_LINE and (text.startswith(b"#") or not text.strip(b" \t"))


def items_of(lines: list[bytes]) -> list[tuple[int, int]]:
    """Returns the first and the last line of each command and block of a deck, counted from 0."""
    items: list[tuple[int, int]] = []
    first = None
    for at, line in enumerate(lines):
        words = words_of(line)
        if first is not None:
            if words == [b"end"]:
                items.append((first, at))
                first = None
        elif words[:1] and words[0] in OPENERS:
            first = at
        elif not is_skipped(line):
            items.append((at, at))
    if first is not None:
        items.append((first, len(lines) - 1))
    return items


def marked(lines: list[bytes], items: list[tuple[int, int]]) -> bytes:
    """Returns the deck with the marker before each command and block except the first. There is no marker after the last one, because its
    last line may lack a newline."""
    firsts = {first for first, _ in items[1:]}
    return b"".join(MARK + line if at in firsts else line for at, line in enumerate(lines))


def answers_of(output: bytes) -> list[list[bytes]]:
    """Returns the lines that each command or block has printed, from the output of a deck with markers."""
    answers: list[list[bytes]] = [[]]
    for line in output.splitlines():
        answers[-1].append(line)
        if answers[-1][-2:] == MARK_ANSWER:
            del answers[-1][-2:]
            answers.append([])
    return answers


def names_in(line: bytes) -> list[str]:
    """Returns the names of the keys of a key line. Texts and numbers in it are replaced by their keys."""
    words = [word.decode("latin-1") for word in words_of(line)]
    if words[:1] != ["key"] or not any(map(is_spelled, words)):
        return words[1:]
    return keys_of(text_of(line).decode("latin-1").strip(" \t")[len("key"):])


def spelled_lines(lines: list[bytes]) -> dict[int, list[str]]:
    """Returns the key lines of a deck that have texts or numbers, by their numbers, counted from 0: each as its keys with its texts. A line
    whose text no keys can type is skipped, because it is refused."""
    found = {}
    for first, last in items_of(lines):
        words = words_of(lines[first])
        if first == last and words[:1] == [b"key"] and any(is_spelled(word.decode("latin-1")) for word in words):
            try:
                found[first] = pieces_of(text_of(lines[first]).decode("latin-1").strip(" \t")[len("key"):])
            except NoKeys:
                continue
    return found


def alpha_may_be_on(lines: list[bytes], pieces: dict[int, list[str]]) -> bool:
    """Returns whether ALPHA can be on before a text in a key line of a deck, or a name open. `pieces` are the key lines with texts."""
    from .alpha import may_be_on
    if not any(isinstance(piece, Text) for row in pieces.values() for piece in row):
        return False
    before = lines[:max(pieces) + 1]
    words = [words_of(before[first]) for first, _ in items_of(before)]
    keys = {key for row in words if row[:1] == [b"key"] for key in row[1:]}
    return may_be_on({row[0] for row in words if row}, keys, before)


def with_keys(deck: bytes, memory: str = MEMORY) -> bytes:
    """Returns a deck in which texts and numbers of key lines are replaced by the names of their keys. The number of lines does not
    change. If ALPHA may be on before a text, the deck is run to find out. A line whose text no keys can type stays, and is refused."""
    if b"key" not in deck:
        return deck
    from .alpha import Row, resolve
    lines = lines_of(deck)
    pieces = spelled_lines(lines)
    rows = {at: Row(row) for at, row in pieces.items()}
    if alpha_may_be_on(lines, pieces):
        resolve(lines, rows, lambda asked: {first: answer for first, _, answer in answered(asked, memory)[1]})
    for at, row in rows.items():
        lines[at] = " ".join(["key", *row.keys()]).encode("latin-1") + lines[at][len(text_of(lines[at])):]
    return b"".join(lines)


def memory_in(words: list[str]) -> tuple[str, list[str]]:
    """Returns the value of `--memory N` and the other words of a command line."""
    at = words.index("--memory")
    given, others = words[at + 1:at + 2], words[:at] + words[at + 2:]
    if not given or given[0] not in MEMORIES or "--memory" in others:
        found = "it twice" if "--memory" in others else f"'{given[0]}'" if given else "nothing"
        raise Failure(f"--memory: found {found}, expected one of {', '.join(MEMORIES)}", 2)
    return given[0], others


def running(memory: str) -> list[str]:
    """Returns the words of a command line that runs a deck from standard input with so many registers of memory."""
    return ["run", *([] if memory == MEMORY else ["--memory", memory]), "-"]


def run(deck: bytes, memory: str = MEMORY) -> tuple[int, bytes]:
    """Runs a deck. Returns its status and its output. Error messages of the program and of the launcher go to standard error."""
    deck = with_keys(deck, memory)
    if len(deck) > LONGEST_DECK:
        raise Failure(f"the deck has {len(deck):,} bytes with the commands that this tool adds: at most {LONGEST_DECK:,} can be run", 3)
    ran = subprocess.run([BENCH, *running(memory)], input=deck, stdout=subprocess.PIPE)
    if ran.returncode == NO_ANSWER:
        raise Failure("./bench gave no answer: see its message above", NO_ANSWER)
    return ran.returncode, ran.stdout


def ended(status: int, when: str) -> str:
    """Returns the text of the error for a bench that has ended early. Only a bench with a status above 1 has printed its cause."""
    if status < 0:
        return f"the bench was stopped by signal {-status} {when}"
    return f"the bench ended with status {status} {when}: {'see its message above' if status > 1 else 'please report this with the deck'}"


def answered(deck: bytes, memory: str = MEMORY) -> tuple[int, list[Answer]]:
    """Runs a deck. Returns its status, and for each command and block the first and last line, counted from 0, and the lines that it has
    printed."""
    lines = lines_of(with_keys(deck, memory))
    items = items_of(lines)
    status, output = run(marked(lines, items), memory)
    answers = answers_of(output)
    if status in (0, 1) and items and len(answers) != len(items):
        raise Failure(f"the bench answered {len(answers)} of {len(items)} commands and ended with status {status}: please report this "
                      "with the deck", 3)
    return status, [Answer(first, last, answer) for (first, last), answer in zip(items, answers)]


def refused(deck: bytes, memory: str = MEMORY) -> tuple[int, list[Refusal]]:
    """Runs a deck. Returns 0 or 1, or a higher status of the bench, and the refused commands and blocks: for each the first and last
    line, counted from 0, and the refusal."""
    lines = lines_of(deck)
    status, answers = answered(deck, memory)
    found = [Refusal(first, last, answer[-1].decode()) for first, last, answer in answers
             if answer and answer[-1].startswith(b"! ") and words_of(lines[first]) not in NEVER_REFUSED]
    return (status if status > 1 else int(bool(found))), found


def refused_key(lines: list[bytes], at: int, memory: str = MEMORY) -> str:
    """Returns which key of a refused key line is refused, and why if that is known, or why its text has no keys; an empty text if the line
    is not a key line, or nothing more is known of its only key. `at` counts lines from 0. The deck is run up to this line, with a line for
    each of its keys."""
    if words_of(lines[at])[:1] != [b"key"]:
        return ""
    try:
        names_in(lines[at])
    except NoKeys as why:
        return str(why)
    named = lines_of(with_keys(b"".join(lines[:at + 1]), memory))[at]
    names = [word.decode("latin-1") for word in words_of(named)[1:]]
    keys = "".join(f"key {name}\n" for name in names).encode("latin-1")
    _, answers = answered(b"".join(lines[:at]) + keys, memory)
    refusals = [(number, answer[-1]) for number, (_, _, answer) in enumerate(answers[-len(names):], 1) if answer]
    if not refusals:
        return ""
    number, refusal = refusals[0]
    reason = why_not_held(b"".join(lines[:at]), names[:number - 1], memory) if refusal == KEY_NOT_HELD else ""
    found = f"key {number} is refused: {names[number - 1]}" if names[1:] else ""
    return f"{found}{': ' if found and reason else ''}{reason}"


def why_not_held(deck: bytes, names: list[str], memory: str = MEMORY) -> str:
    """Returns why a key is refused as KeyNotHeld after a deck and some keys, if ALPHA or USER is on; otherwise an empty text."""
    deck = deck if deck.endswith(b"\n") or not deck else deck + b"\n"
    keys = "".join(f"key {name}\n" for name in names).encode("latin-1")
    _, answers = answered(deck + keys + b"show flags\n", memory)
    flags = b" ".join(answers[-1][2]).split() if answers else []
    if ALPHA_FLAG in flags:
        return "ALPHA is on, so that keys write letters: `key ALPHA` turns it off"
    return "flag 27, USER, is set, but the bench has no USER mode: `XEQ` calls a label" if USER_FLAG in flags else ""


def hexadecimal(data: bytes) -> list[bytes]:
    """Returns bytes as lines of hexadecimal digits for a block."""
    return [data[at:at + 32].hex().upper().encode() for at in range(0, len(data), 32)]


def block(opener: bytes, lines: Iterable[bytes]) -> bytes:
    """Returns a block of a deck, made from its lines without line ends."""
    return b"\n".join([opener, *lines, b"end", b""])


def differences(wanted: bytes, found: bytes) -> Iterator[tuple[int, Optional[bytes], Optional[bytes]]]:
    """Yields the lines in which two outputs differ: the number of each, and the line of both with its newline; None if one has no such
    line."""
    for number, (one, other) in enumerate(zip_longest(lines_of(wanted), lines_of(found)), 1):
        if one != other:
            yield number, one, other


def quoted(line: Optional[bytes]) -> str:
    """Returns a line of an output in quotes, for a message."""
    if line is None:
        return "no line"
    return f"`{shown(line.rstrip())}`" + ("" if line.endswith(b"\n") else " without a newline")


def shown(text: Union[str, bytes]) -> str:
    """Returns a line for a message: unprintable characters are escaped, and long lines are cut."""
    text = text.decode(errors="backslashreplace") if isinstance(text, bytes) else text
    text = "".join(letter if letter.isprintable() or letter == "\t" else letter.encode("unicode_escape").decode()
                   for letter in text)
    return text if len(text) <= LONGEST_LINE else f"{text[:LONGEST_LINE]}.."
