"""Cases of tests: a row each, or a row of a table in CSV. A case calls a label or a function, with registers before and wanted after."""
from __future__ import annotations

import os
import re
from typing import NamedTuple

from .decks import Failure, bytes_of
from .settings import Setting, Wrong, reader_of, setting, settings_in

WORDS = re.compile(r"""(?:[^\s"'#]|"[^"]*"|'[^']*')+|\#.*""")
ARROW = "->"
TARGET = re.compile(r"(?:([A-Za-z]\w{0,11})\.)?([A-Za-z]\w{0,11})")

# A hint that is wrong if the row shows another cause.
NO_VALUE = re.compile(r";\sthe value is missing.*")

CALLED = "a label, PAGE.LABEL, or the name of a function in quotes"
FORM = "expected LABEL BEFORE.. -> AFTER.., for example: X10 X=5 -> X=50"


class Case(NamedTuple):
    """A case: its file, line number and title, the label or the quoted function that it calls, and its settings."""
    path: str
    number: int
    title: str
    target: str
    before: list[Setting]
    after: list[Setting]

    def name(self) -> str:
        """Returns the name of the case."""
        return f"{self.path}:{self.number} {self.target}{f' {self.title}' if self.title else ''}"

    def called(self) -> str:
        """Returns the place and the text of what the case calls, for an error; with the column if the row has it."""
        row = next(iter(text_in(self.path).splitlines()[self.number - 1:self.number]), "") if os.path.isfile(self.path) else ""
        found = re.search(rf"(?<![\w.\"]){re.escape(self.target)}(?![\w.])", row)
        return f"{self.path}:{self.number}: `{self.target}`: {f'column {found.start() + 1}: ' if found else ''}".removesuffix(": ")


def failure(path: str, number: int, row: str, why: str) -> Failure:
    """Returns an error in a row."""
    return Failure(f"{path}:{number}: `{row.strip()[:200]}`: {why}")


def text_in(path: str) -> str:
    """Returns the text of a file in UTF-8."""
    try:
        return bytes_of(path).decode("utf-8-sig")
    except UnicodeDecodeError as error:
        before = error.object[:error.start]
        line, column = before.count(b"\n") + 1, len(before.rpartition(b"\n")[2].decode("utf-8-sig")) + 1
        raise Failure(f"{path}:{line}: column {column}: byte {error.object[error.start]:02X} is not valid UTF-8: save the file as UTF-8"
                      ) from error


def with_quote(why: Wrong, row: str) -> str:
    """Returns the text of an error in a row. If the number of double quotes in the row, outside single ones, is odd, this is the cause."""
    if re.sub("'[^']*'", "", row).count('"') % 2 == 0:
        return str(why)
    return NO_VALUE.sub("", str(why)) + "; the other quote is missing"


def joined(common: list[Setting], own: list[Setting]) -> list[Setting]:
    """Returns the settings of a case, which replace those of all cases."""
    names = {one.name for one in own}
    return [*(one for one in common if one.name not in names), *own]


def is_target(text: str) -> bool:
    """Returns whether a text can be what a case calls."""
    return text.startswith('"') or TARGET.fullmatch(text) is not None


def row_of(words: list[str], common: list[Setting]) -> tuple[str, list[Setting], list[Setting]]:
    """Returns the target of a row, and its settings before and after the call."""
    if words[0] != ARROW and not is_target(words[0]):
        from .case_causes import of_target
        raise Wrong(f"found `{words[0]}`, expected {CALLED}{of_target(words[0])}", words[0])
    at = words.index(ARROW) if ARROW in words else len(words)
    return words[0], joined(common, settings_in(words[1:at], True)), settings_in(words[at + 1:], False)


def cases_in(path: str, common: list[Setting]) -> list[Case]:
    """Returns the cases of a file. Empty rows and rows that begin with # are skipped."""
    cases = []
    for number, row in enumerate(text_in(path).splitlines(), 1):
        places = list(WORDS.finditer(row))
        words = [place[0] for place in places]
        title = words.pop()[1:].strip() if words and words[-1].startswith("#") else ""
        if not words:
            continue
        if words[0] == ARROW or ARROW not in words:
            from .case_causes import of_arrow
            raise failure(path, number, row, of_arrow(row) + FORM)
        try:
            target, before, after = row_of(words, common)
        except Wrong as why:
            column = next((f"column {place.start() + 1}: " for place, word in zip(places, words) if word is why.word), "")
            cause = with_quote(why, row[:row.find("#")] if title else row)
            if cause == str(why) and re.search(r"\w#\S", row):
                cause = NO_VALUE.sub("", cause) + "; # begins a comment, and only = compares a value"
            raise failure(path, number, row, f"{column}{cause}") from why
        cases.append(Case(path, number, title, target, before, after))
    return cases


def rows_in(path: str) -> list[list[str]]:
    """Returns the rows of a table in CSV, of which the first one has names."""
    import csv
    import io
    reader = csv.reader(io.StringIO(text_in(path)))
    try:
        rows = list(reader)
    except csv.Error as error:
        raise Failure(f"{path}:{reader.line_num}: cannot be read as CSV: {error}") from error
    if not rows or not rows[0]:
        raise Failure(f"{path}:1: found no names, expected a first row with names, for example: X,Y,->X")
    return rows


def check_names(path: str, names: list[str], row: str, is_written: bool) -> None:
    """Checks the names in the first row of a table. If the values found are written, none needs to be expected."""
    other = re.search("[;\t|]", names[0]) if len(names) == 1 else None
    if other:
        raise Failure(f"{path}:1: `{names[0]}`: found {other[0]!r} between names, expected commas: save the table with commas")
    for name in names:
        try:
            _ = name in ("", "call") or reader_of(name.removeprefix(ARROW).strip())
        except Wrong as why:
            raise failure(path, 1, row, str(why)) from why
    twice = next((name for name in names if name and names.count(name) > 1), None)
    if twice:
        places = [number for number, name in enumerate(names, 1) if name == twice]
        raise failure(path, 1, row, f"the columns {' and '.join(map(str, places))} are named {twice}: the names of expected values begin "
                                    "with ->")
    if not is_written and not any(name.startswith(ARROW) for name in names):
        raise failure(path, 1, row, "no name begins with ->, so nothing would be compared: name an expected value, for example ->X, or "
                                    "write the values with --write OUT --values X")


def table_in(path: str, target: str | None, common: list[Setting], is_written: bool = False) -> list[Case]:
    """Returns the cases of a table in CSV. Its first row names the settings; those wanted after the call begin with ->. A column `call` has
    the target. Empty cells are not set, or not compared. If the values found are written, none needs to be expected."""
    rows = rows_in(path)
    if target is not None and not is_target(target):
        raise Failure(f"--call {target}: expected {CALLED}", 2)
    names, cases = [name.strip() for name in rows[0]], []
    check_names(path, names, ",".join(rows[0]), is_written)
    if target is None and "call" not in names:
        raise Failure(f"{path}:1: `{','.join(names)}`: no column is named call: name the function with --call LABEL")
    for number, row in enumerate(rows[1:], 2):
        if not any(cell.strip() for cell in row):
            continue
        if len(row) > len(names):
            is_comma = sum(re.fullmatch(r"-?\d+", cell.strip()) is not None for cell in row) > len(names)
            hint = "; if a comma is a decimal sign, write a point" if is_comma else ""
            raise failure(path, number, ",".join(row), f"found {len(row)} cells, expected at most {len(names)}{hint}")
        cells = [(name, cell.strip()) for name, cell in zip(names, row) if cell.strip()]
        try:
            before = [setting(name, "=", cell, True) for name, cell in cells if name != "call" and not name.startswith(ARROW)]
            after = [setting(name[2:].strip(), "=", cell, False) for name, cell in cells if name.startswith(ARROW)]
        except Wrong as why:
            raise failure(path, number, ",".join(row), str(why)) from why
        called = dict(cells).get("call", target)
        if called is None:
            raise failure(path, number, ",".join(row), "the cell of call is empty, expected a label")
        if not is_target(called):
            raise failure(path, number, ",".join(row), f"the cell of call is `{called}`, expected {CALLED}")
        cases.append(Case(path, number, "", called, joined(common, before), after))
    return cases
