"""Prints a source with the address and the words of each line, and its labels.

usage: tools/list [[--page P] [--bank N] FILE.asm [FILE.page]]..     (- is standard input)

For each source line, the listing has the address of its first word, its words, its line number and its text. If there are more
than two words, the third and the following ones are on the next rows. After the lines, the listing has the labels: the address
of each label, its line, and the lines that refer to it, or a hyphen if no line does.
    8017  04E        18  X1000:  C=0 ALL
    ..
    Label         Address  Line  Used in
    X1000         8017       18  5

  FILE.page   a description of the end of the page, as for tools/import. Its lines follow those of the source, with their own
              numbers. Words that only fill the page are one row, such as `8026  000 .. 8FF3`
  --page P    the page of the source after it, 4 to F; each further source gets the next page. The default is 8
  --bank N    the bank of the source after it, 1 to 4; each further source gets the next bank, up to the next --page

The listing of several sources is that of tools/module list: a long jump can name labels of all sources, and the labels are at the
end.
The bench assembles the source and determines words and addresses.

Status 0: the listing is printed. 1: it is not printed; standard error lists all errors of the source. 2: the command line is
wrong. 70: the bench gave no answer."""
from __future__ import annotations

import os
from typing import TYPE_CHECKING, Optional, Sequence

from ..decks import end_with_reader
from ..placing import run_tool
from ..sources import Assembled

if TYPE_CHECKING:
    from ..linking import Linked

# The number of words in a row, and the width of the part before the line number.
IN_A_ROW, WIDTH = 2, 13


def rows_of(source: Assembled, at: int) -> list[str]:
    """Returns the rows for a line of the source."""
    place, words = source.places[at], source.words_of_line(at)
    if at in source.whole.fills:
        return fill_rows(source, at)
    parts = [words[first:first + IN_A_ROW] for first in range(0, len(words), IN_A_ROW)]
    texts = [f"{source.address(place + IN_A_ROW * row)}  {' '.join(f'{word:03X}' for word in part)}"
             for row, part in enumerate(parts)] or [""]
    text = source.whole.told[at].decode(errors="backslashreplace")
    return [f"{texts[0]:<{WIDTH}}  {source.whole.origins[at][1]:4}  {text}".rstrip(), *texts[1:]]


def fill_rows(source: Assembled, first: int) -> list[str]:
    """Returns the row for the first of the lines that fill the page with one word; no row for the others."""
    def is_alike(at: int) -> bool:
        """Returns whether a line fills the page with the same word."""
        return at in source.whole.fills and source.texts[at] == source.texts[first]

    if is_alike(first - 1):
        return []
    last = next(at for at in range(first, len(source.texts)) if not is_alike(at + 1))
    behind = f" .. {source.address(source.places[last])}" if last > first else ""
    return [f"{source.address(source.places[first])}  {source.words_of_line(first)[0]:03X}{behind}"]


def label_row(source: Assembled, name: str, place: int) -> str:
    """Returns the row of a label."""
    uses = " ".join(number_of(source, at) for at in source.uses_of(name)) or "-"
    return f"{name:<12}  {source.address(place):7}  {number_of(source, source.line_of(name)):>4}  {uses}"


def number_of(source: Assembled, at: int) -> str:
    """Returns the number of a line. A line of the description has the name of its file before it."""
    path, number = source.whole.origins[at]
    return str(number) if path == source.whole.path else f"{os.path.basename(path)}:{number}"


def tell(sources: Sequence[Assembled], linked: Optional[Linked]) -> int:
    """Prints the listing of a source, or of several ones."""
    end_with_reader()
    if linked:
        from ..building import listing
        return listing(linked)
    source, = sources
    for at, (path, _) in enumerate(source.whole.origins):
        if at and path != source.whole.origins[at - 1][0]:
            print(f"\n{os.path.basename(path)}")
        print(*(f"{row}\n" for row in rows_of(source, at)), sep="", end="")
    if source.labels:
        print(f"\n{'Label':<12}  Address  Line  Used in")
    for name, place in sorted(source.labels.items()):
        print(label_row(source, name, place))
    return 0


def main(words: list[str]) -> int:
    """Does the work of the command. Returns the status."""
    return run_tool("list", __doc__, tell, words)
