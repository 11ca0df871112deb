"""Notes about images and sources that name another page than the one at which they are plugged.

The jumps and calls of an image have whole addresses. If all of them lead to one other page, the image was probably made for that page. A
source names its page by ORG."""
from typing import NamedTuple, Optional, Sequence

from .decks import block, hexadecimal
from .inputs import IMAGE, SOURCE, Input, words_in
from .pages import LONG, Page
from .states import lines_written

# The pages of modules. What leads to another page calls the system or a device.
PORTS = "89ABCDEF"


class Named(NamedTuple):
    """A page that a file names, and where it does."""
    page: str
    text: str


def named_by_jumps(page: str, data: bytes) -> Optional[Named]:
    """Returns the page to which the long jumps and calls of an image lead, and one of them; None unless all lead to one other page, at
    which the image would have their targets."""
    words, alone = words_in(data), block(f"image {page}".encode(), hexadecimal(data))
    found = Page(page, words, lambda lists: lines_written(alone + "".join(f"list {first} {n}\n" for first, n in lists).encode())[0])
    jumps = [(place, one) for place in sorted(found.reached) for one in [LONG.fullmatch(found.instructions[place][1])] if one]
    jumps = [(place, one) for place, one in jumps if one[2] in PORTS]
    if len({one[2] for _, one in jumps}) != 1 or jumps[0][1][2] == page or not all(words[int(one[3], 16)] for _, one in jumps):
        return None
    place, first = jumps[0]
    return Named(first[2], f"its jumps and calls lead to page {first[2]}, for example `{first[0]}` at {page}{place:03X}")


def named_by(file: Input, page: str) -> Optional[Named]:
    """Returns the page that a file names, and where it does; None if it names no other page than this one."""
    if file.kind == IMAGE and not file.of_mod:
        return named_by_jumps(page, b"".join(bytes.fromhex(line.decode()) for line in file.lines))
    if file.kind == SOURCE and file.origin not in (None, page):
        return Named(str(file.origin), f"its ORG names page {file.origin}")
    return None


def tell_pages(files: Sequence[Input]) -> None:
    """Notes the images and sources that name another page, if no other file is plugged there."""
    plugged = {file.placed.page for file in files if file.placed}
    for file in files:
        found = named_by(file, file.placed.page) if file.placed else None
        if file.placed and found and found.page not in plugged:
            file.note(f"{found.text}, but it is plugged at page {file.placed.page}: if it was made for page {found.page}, plug it there")
