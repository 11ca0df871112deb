"""The lessons of tools/calculator: the examples in their groups, the decks of a folder of one's own, and a deck that is given; and the
lesson that is open."""
import os
import re
from typing import NamedTuple, Optional

from . import TOP
from .decks import Failure, bytes_of, lines_of
from .parts import Entry, Part

EXAMPLES = os.path.join(TOP, "examples")

# The list of examples: the heading of a group, and a row with a deck.
PLACE = re.compile(r"^## (.*)$|^\| \[([^\]]*)\]\((\S+)\.deck\) \| (.*) \|$", re.M)

# The lessons that walk through an example of the documents. They come first in the list of lessons.
WALKS = {"trace": "A carry on its way", "key-to-byte": "A program, from key to byte", "debugged": "A module's function, found by a break"}
GUIDED, OWN, GIVEN = "Guided", "Own lessons", "Given"

LONGEST_TITLE = 80


class Lesson(NamedTuple):
    """A lesson: the group in which it is listed, its title, and the path of its deck."""
    group: str
    title: str
    path: str


def example(name: str) -> str:
    """Returns the path of the deck of an example."""
    return os.path.join(EXAMPLES, f"{name}.deck")


def examples() -> dict[str, Lesson]:
    """Returns the examples as lessons, by their names, in the order of the list of examples/README.md."""
    found, group = {name: Lesson(GUIDED, title, example(name)) for name, title in WALKS.items()}, ""
    for heading, name, path, title in PLACE.findall(bytes_of(os.path.join(EXAMPLES, "README.md")).decode("utf-8")):
        group = heading or group
        if path and path not in found:
            found[path] = Lesson(group, f"{name}: {title}", example(path))
    return found


def title_of(path: str) -> str:
    """Returns the title of a deck: the words of its first comment, or its name."""
    line = next(iter(lines_of(bytes_of(path))), b"").decode("utf-8", "replace").strip()
    title = line.lstrip("# ") if line.startswith("#") else ""
    return title[:LONGEST_TITLE] or os.path.basename(path)


def decks_in(folder: str) -> dict[str, Lesson]:
    """Returns the decks of a folder as lessons, by their names, in the order of these names."""
    try:
        names = sorted(name for name in os.listdir(folder) if name.endswith(".deck"))
    except OSError as error:
        raise Failure(f"--lessons {folder}: cannot be read: {error.strerror}", 2) from error
    if not names:
        raise Failure(f"--lessons {folder}: found no file NAME.deck in this folder", 2)
    paths = {name[:-len(".deck")]: os.path.join(folder, name) for name in names}
    return {f"own/{name}": Lesson(OWN, title_of(path), path) for name, path in paths.items()}


def lessons(folder: Optional[str] = None, given: Optional[str] = None) -> dict[str, Lesson]:
    """Returns all lessons by their names: a deck that is given, those of a folder, and the examples."""
    found = {"given": Lesson(GIVEN, title_of(given), given)} if given else {}
    return {**found, **(decks_in(folder) if folder else {}), **examples()}


def grouped(found: dict[str, Lesson]) -> list[tuple[str, list[list[str]]]]:
    """Returns lessons in their groups: for each group its name, and the names and titles of its lessons."""
    groups: dict[str, list[list[str]]] = {}
    for name, lesson in found.items():
        groups.setdefault(lesson.group, []).append([name, lesson.title])
    return list(groups.items())


class KeptLesson(NamedTuple):
    """A lesson as a branch keeps it: its name, its title, and its parts. Each part has its text, whether it is a command, and the number of
    its entry in the session, or None if it was not executed."""
    name: str
    title: str
    parts: list[tuple[bytes, bool, Optional[int]]]


class OpenLesson:
    """A lesson that is open: its name and title, its parts, and those of them that are left."""

    def __init__(self, name: str, title: str, parts: list[Part], left: list[Part]) -> None:
        """`left` are the last of the parts."""
        self.name, self.title, self.parts, self.left = name, title, parts, left
        # Whether a part was split since the lesson was opened.
        self.is_split = False

    def at(self) -> int:
        """Returns how many parts are not left."""
        return len(self.parts) - len(self.left)

    def take(self, is_all: bool) -> list[Part]:
        """Returns the parts up to the next command, or all that are left. They are not left any more."""
        count = len(self.left) if is_all else next((at for at, part in enumerate(self.left, 1) if part.is_command), len(self.left))
        taken, self.left = self.left[:count], self.left[count:]
        return taken

    def take_back(self, waiting: list[Part]) -> None:
        """Takes back those parts that wait and were not begun."""
        self.left = [part for part in waiting if part.entry is None and part in self.parts] + self.left

    def split(self, part: Part, rest: Part) -> None:
        """Adds the rest of a part after it, if the part is one of the lesson's."""
        if part in self.parts:
            self.parts.insert(self.parts.index(part) + 1, rest)
            self.is_split = True

    def kept(self, entries: list[Entry], steps: int) -> KeptLesson:
        """Returns the lesson as it was after some first entries of the session. Of the last one only some steps were made; 0 means all."""
        parts: list[tuple[bytes, bool, Optional[int]]] = []
        for part in self.parts:
            number = part.entry.number if part.entry and 0 <= part.entry.number < len(entries) else None
            done, rest = part.parted(steps) if steps and number == len(entries) - 1 else (part.text, None)
            parts.append((done, part.is_command, number))
            parts += [] if rest is None else [(rest, True, None)]
        return KeptLesson(self.name, self.title, parts)
