"""The parts of a deck that the desk executes one after the other, and the entries of the session with their replies."""
from __future__ import annotations

import re
from typing import Optional, Union

from .decks import Failure, items_of, lines_of, shown, spelled_lines, text_of, words_of
from .session import is_whole

MOST_STEPS = 9_999_999

# How many lines of a long reply are kept, and how many of its first and last lines then.
MOST_LINES, FIRST_LINES = 5000, 100

# Commands that are executed in pieces.
IN_PIECES = re.compile(r"(run|step|trace)(?: 0*([0-9]{1,7}))?")

# The refusal of a block whose `end` is missing when the input ends.
NO_END = "! 52 NoEnd"


def command_of(kind: str, steps: int) -> bytes:
    """Returns a command that makes so many steps."""
    return b"%s %d\n" % (kind.encode(), steps)


def refusal_of(reply: list[str]) -> Optional[str]:
    """Returns the refusal at the end of a reply, or None."""
    return reply[-1] if reply and reply[-1].startswith("! ") else None


class Part:
    """A command, a block, or the comments and empty lines between two of them, as the bytes of a deck."""

    def __init__(self, text: bytes, is_command: bool, goes_on: bool = False) -> None:
        """Reads the words of a part, and how much a command in pieces has to do."""
        self.text, self.is_command = text, is_command
        # Whether a run that ends at its limit is followed by another one.
        self.goes_on = goes_on
        self.words = [word.decode("latin-1") for word in words_of(lines_of(text)[0])] if is_command else []
        found = IN_PIECES.fullmatch(" ".join(self.words))
        count = int(found[2] or 1) if found else 0
        self.kind: Optional[str] = found[1] if found and count <= MOST_STEPS and (found[2] or found[1] == "step") else None
        # For a command in pieces: how many steps are left, how many were requested so far, and how many lines or words a run has
        # executed.
        self.left, self.asked, self.ran = count if self.kind else 0, 0, 0
        # The keys of a key line, with texts among them.
        self.pieces = [] if self.words[:1] != ["key"] else spelled_lines([text]).get(0, self.words[1:])
        # The entry of this part in the session, whether it is a block without `end` at the end of the deck, and whether it repeats an
        # entry of a session before.
        self.entry: Optional[Entry] = None
        self.is_open, self.is_repeated = False, False
        # Why a run stopped, as the bench printed it.
        self.reason: Optional[str] = None

    def parted(self, steps: int) -> tuple[bytes, Optional[bytes]]:
        """Returns this command in pieces as two: one that makes so many steps, and one that makes those that are left. If none are left,
        returns the command as it is written, and None."""
        kind, left = self.words[0], Part(self.text, True).left - steps
        return (command_of(kind, steps), command_of(kind, left)) if left > 0 else (self.text, None)

    def shown(self) -> str:
        """Returns the part as text."""
        return self.text.decode("utf-8", "replace").replace("\r\n", "\n")

    def paragraphs(self) -> list[str]:
        """Returns the comments as paragraphs. An indented line is a paragraph of its own."""
        found: list[str] = []
        is_open = False
        for line in [] if self.is_command else self.shown().split("\n"):
            words = re.sub("^# ?", "", line)
            is_set_in = words[:1].isspace()
            if words.strip() and is_open and not is_set_in:
                found.append(f"{found.pop()} {words}")
            elif words.strip():
                found.append(words)
            is_open = bool(words.strip()) and not is_set_in
        return found


def parts_of(deck: bytes, may_be_open: bool = False) -> list[Part]:
    """Returns the parts of a deck; their texts together are the deck. The last block may lack its `end` if `may_be_open` is set."""
    if deck.endswith(b"\r"):
        raise Failure(f"line {deck.count(10) + 1}: the deck ends in CR without LF, which makes the CR part of this line: end the line with LF")
    lines = lines_of(deck)
    parts, at = [], 0
    for first, last in items_of(lines):
        if first > at:
            parts.append(Part(b"".join(lines[at:first]), False))
        parts.append(Part(b"".join(lines[first:last + 1]), True))
        at = last + 1
    if lines[at:]:
        parts.append(Part(b"".join(lines[at:]), False))
    if parts and parts[-1].is_command and not is_whole(parts[-1].text.rstrip(b"\n")):
        parts[-1].is_open = True
        if not may_be_open:
            first = items_of(lines)[-1][0]
            raise Failure(f"{NO_END}: line {first + 1}: the block `{shown(text_of(lines[first]))}` has no line `end`")
    return parts


class Entry:
    """An entry of the session: its text, its reply, and the refused key if there were several. Of a long reply, the lines in the middle
    are dropped. The page has shown the refusal of an entry that repeats one of a session before."""

    def __init__(self, text: bytes, is_repeated: bool = False) -> None:
        """Begins with an empty reply."""
        self.text, self.is_repeated = text, is_repeated
        # The number of the entry in the session; -1 if it is not in the session, for example because it was replaced.
        self.number = -1
        self.reply: list[str] = []
        self.key: Optional[str] = None
        # What was refused of the command: a program line, an instruction, or one of several keys; an empty text if this is the command.
        self.refused = ""
        # How many lines were dropped. They were between the first FIRST_LINES lines and the others.
        self.dropped = 0

    def add(self, lines: list[str]) -> None:
        """Adds lines to the reply."""
        self.reply = self.reply + lines
        if len(self.reply) > MOST_LINES:
            self.dropped += len(self.reply) - 2 * FIRST_LINES
            self.reply = self.reply[:FIRST_LINES] + self.reply[-FIRST_LINES:]

    def told(self) -> list[Union[str, list[str]]]:
        """Returns the text without its last newline, with a character for each byte, and the reply, which is shortened if it is long."""
        reply, dropped = self.reply, self.dropped
        if len(reply) > MOST_LINES or dropped:
            dropped += len(reply) - 2 * FIRST_LINES
            reply = [*reply[:FIRST_LINES], f"… {dropped} lines", *reply[-FIRST_LINES:]]
        return [self.text.decode("latin-1").removesuffix("\n"), reply]
