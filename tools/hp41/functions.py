"""Functions of modules by name and by number: those of given modules, and those of tools/functions.txt."""
from __future__ import annotations

import os
import re
from typing import TYPE_CHECKING, Iterator, Optional, Sequence

from . import TOOLS
from .decks import answered, bytes_of

if TYPE_CHECKING:
    from .spellings import Tables

TABLE = os.path.join(TOOLS, "functions.txt")

HEAD = re.compile(r"XROM ([0-9]{1,2}(?: and [0-9]{1,2})?), ([^(]*?)(?: \(.*\))?")
NAMED = re.compile(r"XROM ([0-9]{2},[0-9]{2}) (\S+)")


def table() -> Iterator[tuple[str, str, str]]:
    """Yields the functions of the table: a program line, the name, and the module."""
    number, module = 0, ""
    for line in bytes_of(TABLE).decode("utf-8").splitlines():
        head = HEAD.fullmatch(line)
        if head:
            number, module = int(head[1][:2]), head[2]
        elif line and not line.startswith(("#", "?")):
            first, *names = line.split()
            for at, name in enumerate(names, int(first)):
                yield f"XROM {number:02},{at:02}", name, module


def without_numbers() -> Iterator[tuple[str, str]]:
    """Yields the functions of the table whose numbers are not known: the name, and the module with its number."""
    head = ""
    for line in bytes_of(TABLE).decode("utf-8").splitlines():
        found = HEAD.fullmatch(line)
        if found:
            head = f"{found[2]}, XROM {found[1]}"
        elif line.startswith("? "):
            yield from ((name, head) for name in line.split()[1:])


def functions_of(pages: list[tuple[str, bytes]]) -> list[tuple[str, str]]:
    """Returns the output of `show functions` for pages: each line with its file. A page is a file and a deck that plugs it at page 8."""
    if not pages:
        return []
    deck = b"".join(plugs + b"show functions\nunplug 8\n" for _, plugs in pages)
    answers = [answer for _, _, answer in answered(deck)[1]][1::3]
    return [(line.decode(), path) for (path, _), answer in zip(pages, answers) for line in answer]


class Functions:
    """Functions by name and by line. `given` are lines of `show functions`, each with its origin. Given modules replace modules of the
    table that have the same number, and their names take precedence over names of the table."""

    def __init__(self, tables: Tables, given: Sequence[tuple[str, str]] = ()) -> None:
        """Reads the table, and adds the given functions."""
        self.by_name: dict[str, list[tuple[str, str]]] = {}
        self.names: dict[str, str] = {}
        self.unnumbered = {tables.key(name): module for name, module in without_numbers()}
        numbers = {line[5:7] for line, _ in given}
        named = [(NAMED.fullmatch(line), path) for line, path in given]
        found = [(f"XROM {name[1]}", name[2], path) for name, path in named if name and name[2] != "-"]
        taken = {tables.key(name) for _, name, _ in found}
        known = [row for row in table() if row[0][5:7] not in numbers]
        for line, name, module in found + known:
            self.names.setdefault(line, name)
        for line, name, module in found + [row for row in known if tables.key(row[1]) not in taken]:
            self.by_name.setdefault(tables.key(name), []).append((line, f"{name} of {module}"))

    def spellings(self, key: str) -> list[tuple[str, str]]:
        """Returns the line of a function with this name, with a remark; an empty list if the name is unknown or ambiguous."""
        found = list(dict.fromkeys(self.by_name.get(key, [])))
        return found if len({line for line, _ in found}) == 1 else []

    def without_number(self, key: str) -> Optional[str]:
        """Returns the module of a function whose number is not known, with the number of the module; None if there is none."""
        return self.unnumbered.get(key)

    def lines(self, key: str) -> list[str]:
        """Returns all lines that are functions with this name."""
        return list(dict.fromkeys(line for line, _ in self.by_name.get(key, [])))

    def told(self, line: str) -> str:
        """Returns a line followed by the name of its function, if that is known."""
        return f"{line} {self.names[line]}" if line in self.names else line
