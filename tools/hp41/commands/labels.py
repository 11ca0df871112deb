"""Prints the labels of a source, each with its address.

usage: tools/labels [[--page P] [--bank N] FILE.asm [FILE.page]]..     (- is standard input)

A line for each label, sorted by address:
    800C FIVE
    8017 X1000
In a page of several banks, the bank follows the address:
    8013 b2 DOUBLE

  FILE.page   a description of the end of the page of the source before it, as for tools/import
  --page P    the page of the source after it, 4 to F; each further source gets the next page. The default is 8
  --bank N    the bank of the source after it, 1 to 4; each further source gets the next bank, up to the next --page

In several sources, a long jump can name labels of all of them, as in docs/WORKSHOP.md.

The bench assembles the source and determines the addresses. Commands in .calls files can use the labels instead of addresses:
tools/import replaces them.

Status 0: the labels are printed. 1: they are not printed; standard error lists all errors of the source. 2: the command line is
wrong. 70: the bench gave no answer."""
from __future__ import annotations

from typing import TYPE_CHECKING, Optional, Sequence

from ..decks import end_with_reader
from ..placing import run_tool
from ..sources import Assembled

if TYPE_CHECKING:
    from ..linking import Linked


def tell(sources: Sequence[Assembled], linked: Optional[Linked]) -> int:
    """Prints the labels of sources."""
    end_with_reader()
    pages = [source.page for source in sources]
    rows = [(source.address(place), source.number, name) for source in sources for name, place in source.labels.items()]
    for address, number, name in sorted(rows, key=lambda row: row[:2]):
        print(address, *([f"b{number}"] if pages.count(address[0]) > 1 else []), name)
    return 0


def main(words: list[str]) -> int:
    """Does the work of the command. Returns the status."""
    return run_tool("labels", __doc__, tell, words)
