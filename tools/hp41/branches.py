"""The branches of a session. If it goes on from a past state, what followed this state is kept as the deck of a branch."""
from typing import NamedTuple, Optional, Union

from .decks import Failure, items_of, lines_of
from .lessons import KeptLesson, OpenLesson
from .parts import Part, parts_of

# How many branches are kept.
MOST_BRANCHES = 20

LONGEST_LABEL = 40


class Branch(NamedTuple):
    """A session up to some place: the texts of its entries, each with its newline, and the lesson that is open there, or None."""
    texts: list[bytes]
    lesson: Optional[KeptLesson]

    def deck(self) -> bytes:
        """Returns the deck."""
        return b"".join(self.texts)

    def parts(self) -> tuple[list[Part], Optional[OpenLesson]]:
        """Returns the parts of the deck, which repeat the entries of a session, and the lesson, to which some of them belong."""
        texts, lesson = list(self.texts), self.lesson
        for text, _, number in lesson.parts if lesson else []:
            if number is not None:
                texts[number] = text
        parts = [parts_of(text, True)[0] for text in texts]
        for part in parts:
            part.is_repeated = True
        if lesson is None:
            return parts, None
        its = [Part(text, is_command) if number is None else parts[number] for text, is_command, number in lesson.parts]
        return parts, OpenLesson(lesson.name, lesson.title, its, [part for part in its if not part.is_repeated])


class Branches:
    """The branches that were left last, by their numbers, each with what a list shows of it."""

    def __init__(self) -> None:
        """Begins without branches."""
        self.kept: dict[int, tuple[str, Branch]] = {}
        self.number = 0

    def keep(self, branch: Branch) -> None:
        """Keeps a branch, unless its deck is empty or kept already."""
        deck = branch.deck()
        if not deck or any(deck == other.deck() for _, other in self.kept.values()):
            return
        if len(self.kept) >= MOST_BRANCHES:
            self.drop(next(iter(self.kept)))
        self.number += 1
        self.kept[self.number] = label_of(self.number, deck), branch

    def drop(self, number: int) -> None:
        """Forgets a branch."""
        self.kept.pop(number, None)

    def branch(self, number: int) -> Branch:
        """Returns a branch."""
        if number not in self.kept:
            raise Failure(f"there is no branch {number}: only the last {MOST_BRANCHES} are kept, so choose one of the list")
        return self.kept[number][1]

    def told(self) -> list[list[Union[int, str]]]:
        """Returns for each branch its number, and what a list shows of it."""
        return [[number, label] for number, (label, _) in self.kept.items()]


def label_of(number: int, deck: bytes) -> str:
    """Returns what a list shows of a branch: the number of its commands, and the last one."""
    lines = lines_of(deck)
    items = items_of(lines)
    last = lines[items[-1][0]].decode("utf-8", "replace").strip() if items else ""
    return f"{number}: {len(items)} command{'s' if len(items) != 1 else ''}, up to {last[:LONGEST_LABEL]}"
