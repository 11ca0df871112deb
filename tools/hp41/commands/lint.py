"""Prints what looks wrong in sources that can be assembled.

usage: tools/lint [[--page P] [--bank N] FILE.asm [FILE.page]]..     (- is standard input)
       tools/lint --rules

Each finding is a line FILE:LINE: RULE: FINDING: SOURCE LINE. docs/ASSEMBLER.md has a table of the rules. A comment in the line
switches rules off there:

        RTN             ; lint: ignore setdec

  FILE.page   a description of the end of the page of the source before it, as for tools/import
  --page P    the page of the source after it, 4 to F; each further source gets the next page. The default is 8
  --bank N    the bank of the source after it, 1 to 4; each further source gets the next bank, up to the next --page
  --rules     prints the names of the rules

In several sources, a long jump can name labels of all of them, and calls are followed through all pages.
A number whose comment repeats it in decimal, for example CON 011 ; module 17, is accepted. A finding is not always an error.

Status 0: there are no findings. 1: there are findings, or the source has errors, which are on standard error. 2: the command line
is wrong. 3: the findings cannot be written. 70: the bench gave no answer."""
from __future__ import annotations

from typing import TYPE_CHECKING, Optional, Sequence

from ..decks import end_with_reader
from ..placing import run_tool
from ..rules import NAMES, Lint, lines_of
from ..sources import Assembled

if TYPE_CHECKING:
    from ..linking import Linked


def findings(*sources: Assembled) -> list[str]:
    """Returns the findings of sources as lines."""
    return lines_of(Lint(*sources))


def tell(sources: Sequence[Assembled], linked: Optional[Linked]) -> int:
    """Prints the findings of sources. Returns the status."""
    if linked:
        linked.share()
    found = findings(*sources)
    end_with_reader()
    print(*found, sep="\n", end="\n" if found else "")
    return int(bool(found))


def main(words: list[str]) -> int:
    """Prints the findings, or the names of the rules."""
    if words == ["--rules"]:
        print(*NAMES, sep="\n")
        return 0
    return run_tool("lint", __doc__, tell, words)
