"""The program line at a position, in memory or in a page, and where programs end before bytes that are no line."""
from typing import NamedTuple, Optional, Sequence

from .memory import Memory
from .paging import Listed, Pages, first_line, shown_bytes, text_at, words_of
from .records import lines_in

LOST = "Memory is not sound, because register c or .END. was overwritten. No line can be read: a step is refused as MemoryLost (15)."


class Position(NamedTuple):
    """What is at a position: its line, as the position and the text, or an empty list if no line can be read there; the bytes that are no
    line and before which programs end, each with its position and the first of its bytes; the lines of the programs in the position's
    page; and why no line can be read, an empty text if one can."""
    line: list[str]
    broken: list[list[str]]
    paged: list[list[str]]
    why: str


def no_line(place: str, why: str = "the bytes there are no program line") -> str:
    """Returns that no line can be read at a position, and why."""
    return f"No line can be read at {place}, because {why}: a step is refused as BrokenProgram (14)."


def in_memory(place: str, lines: Sequence[str], memory: Memory) -> Position:
    """Returns what is at a position in memory. `lines` are those that the bench lists."""
    if not memory.is_sound():
        return Position([], [], [], LOST)
    data, texts = memory.program_bytes(), {line[:4]: line[5:] for line in lines}
    broken = broken_in(lines, data)
    # Nulls before a line are skipped.
    at = next((at for at in range(int(place), len(data)) if data[at]), int(place))
    name = f"{at:04}"
    is_broken = any(name == position for position, _ in broken)
    text = "" if is_broken else texts.get(name) or text_at(data[at:])
    return Position([name, text] if text else [], broken, [], "" if text else no_line(place))


def broken_in(lines: Sequence[str], data: bytes) -> list[list[str]]:
    """Returns the bytes in memory before which the listed lines end because they are no line; an empty list if there are none."""
    if lines and lines[-1][5:] == ".END.":
        return []
    last = int(lines[-1][:4]) if lines else 0
    end = last + lines_in(data[last:])[0][1] if lines else 0
    at = next((at for at in range(end, len(data)) if data[at]), None)
    return [] if at is None else [[f"{at:04}", shown_bytes(data[at:])]]


def in_page(place: str, image: Sequence[str], memory: Memory, pages: Pages) -> Position:
    """Returns what is at a position in a page. `image` is what the bench shows of its bank 1, nothing if this bank is not plugged."""
    page, at = place[1], int(place[2:], 16)
    found = pages.lines(page, tuple(image), at) if image else Listed([], [])
    if not memory.is_sound():
        return Position([], found.broken, found.lines, LOST)
    if not image:
        return Position([], [], [], no_line(place, f"bank 1 of page {page} is not plugged"))
    first = first_line(words_of(image), at)
    address = "" if first is None else f"{page}{first:03X}"
    line: list[str] = next(([one, text] for one, text, *_ in found.lines if one == address), [])
    return Position(line, found.broken, found.lines, "" if line else no_line(place))


def line_after(place: str, rows: Sequence[tuple[str, str]], broken: Sequence[Sequence[str]], is_page: bool) -> Optional[str]:
    """Returns the text of the line after the one at a position; an empty text if the bytes there are no line, and None if it is not known.
    Each of `rows` has the position and the text of a line, and each of `broken` the position of bytes that are no line. In a page `.END.`
    is an END."""
    found = next((row for row in rows if row[0] > place), None)
    ends = next((position for position, *_ in broken if position > place), None)
    if ends is not None and (found is None or ends < found[0]):
        return ""
    return found and ("END" if is_page and found[1] == ".END." else found[1])
