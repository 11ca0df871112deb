"""Texts among keys, as the state of the calculator needs them. A text is typed between two ALPHA; but if ALPHA is on already, as after AON
in a program, or if a name is being typed, it is typed as its letters alone. The bench reports the state: the flags, and what the display
shows."""
import re
from typing import Callable, Union

from .typed import Text, letters_of, text_keys

# The commands whose answers say whether letters are typed, and the flag that is set while ALPHA is on.
PROBES = ("show flags", "show display")
ALPHA_ON = "48"

NAME_OPEN = re.compile(r'(?:XEQ|GTO|LBL) "[^"]*_')
PROMPT_OPEN = re.compile(r"(?:ASTO|ARCL) [^\"]*_")

# A line of a deck has room for so many keys.
TOGETHER = 20

# Openers of blocks that can turn ALPHA on without naming a line that does it.
UNREADABLE = (b"load", b"words", b"image", b"asm")


def takes_letters(flags: str, display: str) -> bool:
    """Returns whether keys are letters, by the answers to the probes."""
    if NAME_OPEN.fullmatch(display):
        return True
    return ALPHA_ON in flags.split() and not PROMPT_OPEN.fullmatch(display)


def typed_keys(text: str, are_letters: bool) -> list[str]:
    """Returns the keys of a text, in a state in which keys are letters, or are not."""
    return letters_of(text) if are_letters else text_keys(text)


def may_be_on(openers: set[bytes], words_of_keys: set[bytes], lines: list[bytes]) -> bool:
    """Returns whether ALPHA can be on in a deck. It cannot, if no key is ALPHA, no line is AON, and all programs are texts."""
    return bool(openers.intersection(UNREADABLE)) or b"ALPHA" in words_of_keys or any(b"AON" in line for line in lines)


class Row:
    """A key line of a deck, in which texts are separated from other keys."""

    def __init__(self, pieces: list[str]) -> None:
        """Separates the keys of a line, as the names of keys and texts, into parts."""
        self.parts: list[Union[Text, list[str]]] = []
        for piece in pieces:
            last = self.parts[-1] if self.parts else None
            if isinstance(piece, Text) or last is None or isinstance(last, Text):
                self.parts.append(piece if isinstance(piece, Text) else [piece])
            else:
                last.append(piece)
        self.letters = [False] * len(self.parts)
        # How many parts are pressed before one of them is refused.
        self.pressed = len(self.parts)

    def keys_at(self, at: int) -> list[str]:
        """Returns the keys of a part."""
        part = self.parts[at]
        return typed_keys(part, self.letters[at]) if isinstance(part, Text) else part

    def keys(self) -> list[str]:
        """Returns all keys of the line."""
        return [key for at in range(len(self.parts)) for key in self.keys_at(at)]

    def commands(self) -> list[tuple[int, bool, str]]:
        """Returns the commands that press the keys, and ask for the state before each text: each with the number of its part, and whether
        it presses keys."""
        found: list[tuple[int, bool, str]] = []
        for at in range(self.pressed):
            if isinstance(self.parts[at], Text):
                found += [(at, False, probe) for probe in PROBES]
            keys = self.keys_at(at)
            found += [(at, True, f"key {' '.join(keys[first:first + TOGETHER])}") for first in range(0, len(keys), TOGETHER)]
        return found

    def learn(self, answers: list[list[bytes]]) -> bool:
        """Takes the answers to the commands. Returns whether the keys have changed, so that later answers do not count."""
        state: list[str] = []
        for (at, presses, _), answer in zip(self.commands(), answers):
            if presses and answer and self.pressed > at + 1:
                self.pressed = at + 1
                return True
            if presses:
                continue
            state.append(answer[0].decode("latin-1") if answer else "")
            if len(state) == len(PROBES):
                are_letters, state = takes_letters(*state), []
                if are_letters != self.letters[at]:
                    self.letters[at] = are_letters
                    return True
        return False


def resolve(lines: list[bytes], rows: dict[int, Row], ask: Callable[[bytes], dict[int, list[bytes]]]) -> None:
    """Finds out which texts in key lines of a deck are typed as letters alone. `rows` has the key lines by their numbers, counted from 0.
    `ask` runs a deck, and returns the answer to each command with the number of its line."""
    is_changed = bool(rows)
    while is_changed:
        deck: list[bytes] = []
        places = {}
        for at, line in enumerate(lines[:max(rows) + 1]):
            if at in rows:
                commands = rows[at].commands()
                places[at] = range(len(deck), len(deck) + len(commands))
                deck += [f"{command}\n".encode("latin-1") for _, _, command in commands]
            else:
                deck.append(line)
        answers = ask(b"".join(deck))
        is_changed = any(rows[at].learn([answers.get(place, []) for place in places[at]]) for at in sorted(rows))
