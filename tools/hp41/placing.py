"""Pages and banks of several files in one command line: --page P, --bank N and --rw apply to the files after them. Also runs the tools
that take sources."""
from __future__ import annotations

import argparse
import os
import re
import sys
from typing import TYPE_CHECKING, Callable, NamedTuple, Optional, Sequence

from .commandlines import Parser
from .counts import counted
from .decks import Failure, escape_output
from .misplaced import wrong_page
from .sources import PAGES, Assembled, Faulty

if TYPE_CHECKING:
    from .linking import Linked
    from .mods import Image

BANKS = 4
FIRST_PAGE = "8"

# Names of pages that are made from names of files.
NAME = re.compile("[A-Za-z][0-9A-Za-z_]{0,11}")


class Group(NamedTuple):
    """The options before a file: its page and bank, None if they are not given, and whether microcode may write the page."""
    page: Optional[str]
    bank: Optional[int]
    writable: bool


class Place(NamedTuple):
    """The place of an image or a source: its page, its bank if that is given, and whether microcode may write the page."""
    page: str
    bank: Optional[int]
    writable: bool


# An option with its value, if it has one.
Option = tuple[str, ...]


def split(words: list[str], valued: Sequence[str]) -> tuple[list[str], list[str], list[list[Option]]]:
    """Returns the words of a command line that are options with their values, the files, and the options directly before each file.
    `valued` are the options with a value. Options after the last file apply to all files, as if they were before the first one."""
    options: list[str] = []
    files: list[str] = []
    before: list[list[Option]] = []
    now: list[Option] = []
    rest = iter(words)
    for word in rest:
        if word.startswith("-") and word != "-":
            name, _, given = word.partition("=")
            value = [given] if "=" in word else [one for one in [next(rest, None)] if one is not None] if word in valued else []
            options += [word] if "=" in word else [word, *value]
            now.append((name, *value))
        else:
            files.append(word)
            before.append(now)
            now = []
    if files:
        before[0] = [*before[0], *now]
    else:
        before = [now]
    return options, files, before


def group_of(before: list[Option], parser: argparse.ArgumentParser) -> Optional[Group]:
    """Returns the group that some options begin; None if none of them places a file."""
    page, bank, writable, is_placed = None, None, False, False
    for name, *value in before:
        is_placed |= name in ("--page", "--bank", "--rw")
        if name == "--page" and value:
            page = value[0].upper()
            if len(page) != 1 or page not in PAGES:
                parser.error(wrong_page(page))
        elif name == "--bank" and value:
            if value[0] not in "1234" or len(value[0]) != 1:
                parser.error(f"--bank {value[0]}: expected a bank from 1 to 4")
            bank = int(value[0])
        writable |= name == "--rw"
    return Group(page, bank, writable) if is_placed else None


class Places:
    """Gives each image or source its page and bank, in the order of the command line."""

    def __init__(self) -> None:
        """Begins at page 8."""
        self.page: Optional[str] = FIRST_PAGE
        self.bank: Optional[int] = None
        self.writable, self.number, self.last = False, 0, FIRST_PAGE
        self.taken: dict[tuple[str, int], str] = {}
        # The page and the bank of the first file of the group.
        self.start = FIRST_PAGE, 1

    def begin(self, group: Optional[Group]) -> None:
        """Begins a group: its page and bank are those of the next file."""
        if group is None:
            return
        if group.page is not None:
            self.page, self.bank, self.writable = group.page, group.bank, group.writable
        elif group.bank is not None:
            self.page, self.bank, self.writable = self.last, group.bank, group.writable
        else:
            self.writable = True
        self.start = self.page or self.last, self.bank or 1

    def next(self, path: str) -> Place:
        """Returns the page of the next file, its bank if that is given, and whether it is writable."""
        self.number += 1
        if self.bank is not None and self.bank > BANKS:
            count = BANKS + 1 - self.start[1]
            raise Failure(f"{path}: no bank is left for it: it is image or source {self.number}, and from bank {self.start[1]} on there "
                          f"{counted(count, 'is {} bank', 'are {} banks')}")
        if self.page is None:
            count = len(PAGES) - PAGES.index(self.start[0])
            raise Failure(f"{path}: no page is left for it: it is image or source {self.number}, and from page {self.start[0]} on there "
                          f"{counted(count, 'is {} page', 'are {} pages')}")
        found = Place(self.page, self.bank, self.writable)
        other = self.taken.setdefault((self.page, self.bank or 1), path)
        if other is not path:
            raise Failure(f"{path}: bank {self.bank or 1} of page {self.page} is already {other}: choose another page or bank")
        self.last = self.page
        if self.bank is None:
            self.page = PAGES[PAGES.index(self.page) + 1] if self.page != PAGES[-1] else None
        else:
            self.bank += 1
        return found

    def fixed(self, path: str, page: str, image: Image, first: str) -> Place:
        """Returns the page, the bank and whether it is writable for an image that has its own place. Later files get the pages after it."""
        if not page:
            raise Failure(f"{path}: no page is free for it from page {first} on: choose an earlier one with --page")
        if self.bank is None and self.page is not None and PAGES.index(self.page) <= PAGES.index(page):
            self.page = PAGES[PAGES.index(page) + 1] if page != PAGES[-1] else None
        return Place(page, image.bank if image.bank_group or image.bank != 1 else None,
                     self.writable or image.is_ram and not image.is_protected)


class Given(NamedTuple):
    """A source of the command line: its file, the description of its page's end, its page and its bank."""
    path: str
    end: Optional[str]
    page: str
    bank: int


def out_of_order(before: Optional[str]) -> str:
    """Returns the error for a description of a page's end that does not follow its source, but another description or nothing."""
    return (f"found {before or 'no file'} before this description of a page's end, expected its source"
            f"{'; a source has only one description' if before else ''}: FILE.asm FILE.page")


def given_in(files: list[str], before: list[list[Option]], parser: argparse.ArgumentParser) -> list[Given]:
    """Returns the sources of a command line with their pages. A description of the end of a page follows its source."""
    found: list[Given] = []
    places = Places()
    for path, options in zip(files, before):
        places.begin(group_of(options, parser))
        is_end = os.path.splitext(path)[1].lower() == ".page"
        if is_end and found and found[-1].end is None:
            found[-1] = found[-1]._replace(end=path)
        elif is_end:
            raise Failure(f"{path}: {out_of_order(found[-1].end if found else None)}")
        else:
            page, bank, _ = places.next(path)
            found.append(Given(path, None, page, bank or 1))
    return found


def names_of(given: list[Given]) -> list[str]:
    """Returns a name for the page of each source: that of its file, in capitals, if it can be a name and is used once."""
    names = [re.sub("[^0-9A-Za-z_]", "_", os.path.splitext(os.path.basename(one.path))[0])[:12].upper() for one in given]
    return [name if NAME.fullmatch(name) and names.count(name) == 1 else f"P{one.page}{f'B{one.bank}' if one.bank > 1 else ''}"
            for name, one in zip(names, given)]


def linked_of(given: list[Given]) -> Linked:
    """Returns several sources as one module, in which a long jump can name labels of all sources."""
    from .linking import Linked
    from .projects import Page, Project
    pages = [Page(name, one.page, one.bank, one.path, one.end, False, None, []) for name, one in zip(names_of(given), given)]
    linked = Linked(Project("command line", "", "320", None, pages, {}, [], [], ""))
    linked.assemble()
    return linked


def run_tool(name: str, usage: str, tell: Callable[[Sequence[Assembled], Optional[Linked]], int], words: list[str]) -> int:
    """Runs a tool that takes sources and their pages. `tell` gets the sources, and if there are several of them, the module that they
    are. Returns the status of the tool."""
    if words in (["-h"], ["--help"]):
        print(usage.strip())
        return 0
    head = re.split(r"  +\(|\n", usage.split("usage: ")[1])[0]
    parser = Parser(prog=name, add_help=False, allow_abbrev=False, usage=head)
    parser.add_argument("--page", action="append")
    parser.add_argument("--bank", action="append")
    parser.add_argument("files", metavar="FILE.asm", nargs="+")
    options, files, before = split(words, ("--page", "--bank"))
    parser.parse_args([*options, *files])
    if files.count("-") > 1:
        parser.error(f"found - {files.count('-')} times: standard input can be read only once")
    escape_output()
    try:
        given = given_in(files, before, parser)
        if len(given) == 1:
            return tell([Assembled(given[0].path, given[0].page, given[0].end, given[0].bank)], None)
        linked = linked_of(given)
        return tell(linked.units, linked)
    except Faulty as why:
        print(*(f"{name}: {line}" for line in str(why).splitlines()), sep="\n", file=sys.stderr)
        return why.status
