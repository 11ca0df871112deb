"""Project files of tools/module: a file in TOML names the pages and banks of a module, their sources, equates, programs and tests."""
from __future__ import annotations

import os
import re
from collections.abc import Iterable
from typing import Any, NamedTuple

from .decks import MEMORIES, Failure
from .toml_causes import toml_in

PAGES = "456789ABCDEF"
BANKS = (1, 2, 3, 4)
NAME = re.compile("[A-Za-z][0-9A-Za-z_]{0,11}")

# The name of a project file in its folder.
IN_A_FOLDER = "module.toml"


class Page(NamedTuple):
    """A bank of a page: its name, its page and bank, and its files. It has either a source or keystroke programs."""
    name: str
    at: str
    bank: int
    source: str | None
    end: str | None
    writable: bool
    module: int | None
    programs: list[str]

    def opener(self) -> bytes:
        """Returns the operands of the block that plugs this bank."""
        bank = f" b{self.bank}" if self.bank != 1 else ""
        return f"{self.at}{bank}{' rw' if self.writable else ''}".encode()


class Project(NamedTuple):
    """A project: its file, name, sizes, pages, equates, keystroke programs in memory, tests, and what every test has before its call."""
    path: str
    name: str
    memory: str
    size: int | None
    pages: list[Page]
    equates: dict[str, str]
    programs: list[str]
    tests: list[str]
    before: str
    # The names of equates that files of `include` have.
    included: frozenset[str] = frozenset()

    def free_page(self) -> str:
        """Returns the highest page that the module does not use."""
        used = {page.at for page in self.pages}
        free = [at for at in PAGES if at not in used]
        if not free:
            raise Failure(f"{self.path}: all pages from 4 to F are used: tests need a free page for the words that set registers")
        return free[-1]


class Reader:
    """Reads a project file. An error names the file, the line of the key, and what was expected."""

    def __init__(self, path: str) -> None:
        """Reads a project file, or the one in a folder."""
        self.path = os.path.normpath(os.path.join(path, IN_A_FOLDER) if os.path.isdir(path) else path)
        if os.path.isfile(self.path) and not self.path.endswith(".toml"):
            # Only errors need this module.
            from .misplaced import CASES, other_than
            other = other_than(self.path, "a project file", {CASES: "`tools/module test PROJECT FILE` runs it"})
            if other:
                raise Failure(f"{self.path}: {other}")
        self.text, self.table = toml_in(self.path)

    def line_of(self, section: str, key: str) -> int | None:
        """Returns the line number of a key in a section, or of the section; None if the text does not have it in this form."""
        now, found = "", None
        for number, line in enumerate(self.text.split("\n"), 1):
            head = re.match(r"\s*\[+\s*(.*?)\s*\]", line)
            if head:
                now = head[1].replace('"', "")
                found = found or number if section in (now, "") and now.partition(".")[0] in (key, section.partition(".")[0]) else found
            elif now == section and re.match(rf'\s*"?{re.escape(key)}"?\s*=', line):
                return number
        return found

    def fail(self, section: str, key: str, why: str) -> Failure:
        """Returns an error about a key."""
        number = self.line_of(section, key)
        place = f"{self.path}:{number}" if number else self.path
        return Failure(f"{place}: {f'[{section}] ' if section else ''}{key}: {why}")

    def value(self, section: str, table: dict[str, Any], key: str, kind: type, usual: Any, wanted: str) -> Any:
        """Returns the value of a key, or the usual one if the key is missing."""
        found = table.get(key, usual)
        if found is not usual and (not isinstance(found, kind) or kind is int and isinstance(found, bool)):
            raise self.fail(section, key, f"found {shown(found)}, expected {wanted}{in_kind(key, found, kind)}")
        return found

    def known(self, section: str, table: dict[str, Any], keys: tuple[str, ...], others: tuple[str, ...] = ()) -> None:
        """Refuses keys that have no meaning. `others` are the keys that come first in the file."""
        for key in table:
            if key in others:
                raise self.fail(section, key,
                                f"this is no key of [{section}], but of the whole project: write it before the first line [..]")
            is_table = not section and "page" in keys and isinstance(table[key], (dict, list)) and bool(table[key])
            if key not in keys and is_table and not nearest(key, keys):
                raise self.fail(section, key, f"unknown table: a page is [page.{key}]")
            if key not in keys:
                near = next((name for name in (OTHER_KEYS.get(key.lower()),) if name in keys), None) or nearest(key, keys)
                raise self.fail(section, key, f"unknown key{near and f', the nearest is {near}'}: expected one of {', '.join(keys)}")

    def files(self, section: str, table: dict[str, Any], key: str) -> list[str]:
        """Returns the paths in a list of file names."""
        names = self.value(section, table, key, list, [], 'a list of file names, for example ["a.txt"]')
        if not all(isinstance(name, str) for name in names):
            raise self.fail(section, key, f'found {shown(names)}, expected a list of file names, for example ["a.txt"]')
        return [self.file(name) for name in names]

    def file(self, name: str) -> str:
        """Returns the path of a file, which is named relative to the folder of the project file."""
        return os.path.normpath(os.path.join(os.path.dirname(self.path), name))

    def want(self, section: str, key: str, *paths: str | None) -> None:
        """Checks that the files of a key exist."""
        for path in paths:
            if path is not None and os.path.isdir(path):
                raise self.fail(section, key, f"{path} is a folder, expected a file")
            if path is not None and not os.path.exists(path):
                folder, name = os.path.split(path)
                near = nearest(name, os.listdir(folder or ".") if os.path.isdir(folder or ".") else [])
                raise self.fail(section, key, f"no file {path}{near and f'; the nearest name is {near}'}")


def nearest(name: str, names: Iterable[str]) -> str:
    """Returns the name that is most like another one; an empty text if none is. Names that differ only in case, in letters in place of
    digits, or in order come first."""
    # Only errors need these modules.
    from difflib import get_close_matches
    from .operand_causes import LETTERS
    known = list(names)
    alike = ([one for one in known if one.lower() == name.lower()]
             or [one for one in known if one.translate(LETTERS) == name.translate(LETTERS)]
             or [one for one in known if len(one) > 2 and sorted(one) == sorted(name)])
    return next(iter(alike or get_close_matches(name, known, 1)), "")


# Keys in the words of other projects.
OTHER_KEYS = {"page": "at", "address": "at", "origin": "at", "addr": "at", "slot": "at", "port": "at", "file": "source", "path": "source",
              "code": "source", "asm": "source", "ram": "memory", "registers": "size", "regs": "size", "cases": "tests",
              "includes": "include", "title": "name", "setup": "before", "constants": "equates", "equ": "equates", "defines": "equates",
              "symbols": "equates", "rw": "writable", "xrom": "module", "id": "module", "number": "module", "listing": "programs"}


def in_kind(key: str, found: Any, kind: type) -> str:
    """Returns what to write for a value of another kind; an empty text if the value does not show it."""
    if kind is int and isinstance(found, str) and re.fullmatch("b?[0-9]+", found):
        return f": write {key} = {int(found.lstrip('b'))}, without quotes"
    if kind is str and isinstance(found, int) and not isinstance(found, bool) and key in ("at", "name"):
        return f': write {key} = "{found}", in quotes'
    if kind is str and isinstance(found, list) and len(found) == 1:
        return f': write {key} = "{found[0]}", without brackets'
    if kind is list and isinstance(found, str):
        return f': write {key} = ["{found}"], in brackets'
    if kind is bool:
        return f": write {key} = true or {key} = false, without quotes"
    return ""


def shown(value: Any) -> str:
    """Returns a value for a message."""
    if value is None:
        return "nothing"
    return f'"{value}"' if isinstance(value, str) else str(value).lower() if isinstance(value, bool) else str(value)


def in_digits(name: str, value: Any) -> str:
    """Returns how an equate is written; an empty text if its value does not show it."""
    bare = re.fullmatch(r"(?:0x|\$|#)?([0-9A-Fa-f]{1,4})[Hh]?", value) if isinstance(value, str) else None
    if bare and (len(bare[1]) != len(value) or len(bare[1]) < 3):
        number = int(bare[1], 16)
        small = f" for a register, place or bit, and {name} = \"{number:03X}\" for a word" if number < 16 and bare[1] == value else ""
        return f": write {name} = {number}{small}" if small else f': write {name} = "{bare[1].upper():0>3}"'
    if isinstance(value, int) and not isinstance(value, bool) and 15 < value < 1024:
        return f': for the word write its three hexadecimal digits, {name} = "{value:03X}"'
    return ""


# The keys that come before the first table.
PROJECT_KEYS = ("name", "memory", "size", "programs", "tests", "before", "include")


def equates_of(reader: Reader) -> dict[str, str]:
    """Returns the equates: for each name the text that replaces it."""
    found = included_by(reader)
    table = reader.value("", reader.table, "equates", dict, {}, "a table [equates]")
    for name, value in table.items():
        if not NAME.fullmatch(name):
            raise reader.fail("equates", name, "not a name: expected a letter and up to eleven letters, digits or _")
        digits = isinstance(value, str) and re.fullmatch("[0-9A-Fa-f]{3,4}", value)
        number = isinstance(value, int) and not isinstance(value, bool) and 0 <= value <= 15
        if not digits and not number and name in PROJECT_KEYS:
            raise reader.fail("equates", name, f"{name} is a key of the project: write it before the line [equates]")
        if not digits and not number:
            raise reader.fail("equates", name, f'found {shown(value)}, expected an address like "27F3", a word like "0C0", or a decimal '
                              f"number from 0 to 15 like 3{in_digits(name, value)}")
        found[name] = str(value)
    return found


def included_by(reader: Reader) -> dict[str, str]:
    """Returns the equates of the files that a project includes."""
    found: dict[str, str] = {}
    for path in reader.files("", reader.table, "include"):
        reader.want("", "include", path)
        other = Reader(path)
        other.known("", other.table, ("equates",))
        found.update(equates_of(other))
    return found


def place_of(path: str, name: str) -> str:
    """Returns the file and line of an equate of a project, which may be in a file of `include`."""
    reader = Reader(path)
    others = [place_of(other, name) for other in reader.files("", reader.table, "include")]
    own = name in reader.table.get("equates", {})
    return f"{reader.path}:{reader.line_of('equates', name)}" if own else next(filter(None, reversed(others)), "")


def page_of(reader: Reader, name: str, table: Any) -> Page:
    """Returns a page or bank from its table."""
    section = f"page.{name}"
    if not NAME.fullmatch(name):
        raise reader.fail(section, name, "not a name: expected a letter and up to eleven letters, digits or _")
    if not isinstance(table, dict):
        raise reader.fail("page", name, f"found {shown(table)}, expected a table such as [page.MAIN]: [page] alone has no name")
    reader.known(section, table, ("at", "bank", "source", "end", "writable", "module", "programs"),
                 ("name", "tests", "memory", "size", "before", "include"))
    if "at" not in table:
        raise reader.fail(section, "at", 'found no such key, expected a page from "4" to "F", for example at = "8"')
    at = reader.value(section, table, "at", str, "", 'a page from "4" to "F"')
    bank = reader.value(section, table, "bank", int, 1, "a bank from 1 to 4")
    module = reader.value(section, table, "module", int, None, "a module number from 1 to 31")
    source = reader.value(section, table, "source", str, None, "the name of a file")
    end = reader.value(section, table, "end", str, None, "the name of a file")
    programs = reader.files(section, table, "programs")
    if len(at) != 1 or at.upper() not in PAGES:
        digit = re.fullmatch(r"(?:0X|\$)?([4-9A-F])(?:000)?H?", at.upper())
        own = f': write at = "{digit[1]}"' if digit else ""
        raise reader.fail(section, "at", f'found {shown(at)}, expected a page from "4" to "F"{own}')
    if bank not in BANKS:
        raise reader.fail(section, "bank", f"found {bank}, expected a bank from 1 to 4")
    if (source is None) == (not programs):
        found = "neither source nor programs" if source is None else "both source and programs"
        raise reader.fail(section, "source", f'found {found}, expected one of source = "FILE.asm" and programs = ["FILE.txt"]')
    if programs and module not in range(1, 32):
        raise reader.fail(section, "module", f"found {shown(module)}, expected the module number of the programs, 1 to 31")
    page = Page(name, at.upper(), bank, reader.file(source) if source else None, reader.file(end) if end else None,
                reader.value(section, table, "writable", bool, False, "true or false"), module, programs)
    reader.want(section, "source", page.source)
    reader.want(section, "end", page.end)
    reader.want(section, "programs", *programs)
    return page


def project_in(path: str) -> Project:
    """Returns the project in a file, or in the file module.toml of a folder."""
    reader = Reader(path)
    table = reader.table
    reader.known("", table, (*PROJECT_KEYS, "equates", "page"))
    if isinstance(table.get("page"), list):
        raise reader.fail("", "page", "found [[page]], expected a table with a name in single brackets, for example [page.MAIN]")
    tables = reader.value("", table, "page", dict, {}, "tables such as [page.MAIN]")
    pages = [page_of(reader, name, one) for name, one in tables.items()]
    if not pages:
        raise Failure(f'{reader.path}: the project has no page: expected a table such as [page.MAIN] with at = "8" and source = "main.asm"')
    taken: dict[tuple[str, int], str] = {}
    for page in pages:
        other = taken.setdefault((page.at, page.bank), page.name)
        if other != page.name:
            raise reader.fail(f"page.{page.name}", "at", f"bank {page.bank} of page {page.at} is already {other}: choose another page or "
                              "bank")
    memory = str(reader.value("", table, "memory", int, 320, f"one of {', '.join(MEMORIES)}"))
    if memory not in MEMORIES:
        raise reader.fail("", "memory", f"found {memory}, expected one of {', '.join(MEMORIES)}")
    size = reader.value("", table, "size", int, None, "a number of data registers")
    if size is not None and not 0 <= size < int(memory):
        raise reader.fail("", "size", f"found {size}, expected a number of data registers below {memory}")
    reader.want("", "programs", *reader.files("", table, "programs"))
    folder = os.path.basename(os.path.dirname(os.path.realpath(reader.path)))
    return Project(reader.path, reader.value("", table, "name", str, folder, "a text"), memory, size, pages, equates_of(reader),
                   reader.files("", table, "programs"), reader.files("", table, "tests"),
                   reader.value("", table, "before", str, "", 'settings such as "RAM=000"'),
                   frozenset(included_by(reader)) - table.get("equates", {}).keys())
