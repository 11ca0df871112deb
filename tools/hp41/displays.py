"""Finds out whether an empty display is off, which no view of the bench prints: it may also show an empty text.

A bench beside the session executes it again up to a state. There a program line shows a number, without a key, because each key turns the
display on. If the display then shows nothing, it is off."""
from __future__ import annotations

from typing import TYPE_CHECKING, Optional

from .foreseen import END_OF_FUNCTION
from .memory import CONSTANT, REGISTER_C, Memory
from .plugging import IN_A_LINE, PAGE_SIZE, jump
from .repeating import Search
from .returns import writing
from .stubs import ZERO, stub_of, stub_of_words

if TYPE_CHECKING:
    from .desk import Desk

# The first page that can be plugged, and the one for words that make memory sound.
FIRST_PAGE, PAGE = "4", "8"
# The byte of STOP, and a word that begins a program line with it.
STOP_BYTE, STOP_WORD = "84", "184"
SETHEX, MOST_WORDS = "260", 128
# The last bytes of the register with `.END.` when the calculator starts.
LAST_END = "C00020"
# How many lines of a program in memory are executed, at most, to come to its end, to a function or to a page.
MOST_AHEAD = 1000
# How often a function or a program that runs is ended, at most: a program can go on after a function, and a page's after one in memory.
MOST_ENDS = 8


class Darkness(Search):
    """A search for whether the display is off in a state of a session."""

    def __init__(self, source: Desk, number: int) -> None:
        """`source` is the desk of the session, and `number` that of the state."""
        # Whether the display is off; None if this cannot be found.
        self.found: Optional[bool] = None
        # Without a module, nothing turns the display off while a program runs, and the key that starts one turns it on.
        self.has_modules = source.plugs > 0
        super().__init__(source, number)

    def find(self, desk: Desk) -> None:
        """Finds whether the display is off."""
        self.found = self.is_off(desk)

    def is_off(self, desk: Desk) -> Optional[bool]:
        """Returns whether the display of a desk is off; None if this cannot be found."""
        for _ in range(MOST_ENDS):
            display, pos = (reply[0] for reply in desk.bench.ask_all([b"show display", b"show pos"]))
            mode, place = pos.split()
            if display or mode == "Run" and not self.has_modules:
                return False
            if mode == "Idle":
                return shows_nothing(desk)
            is_left = leaves_function(desk, place) if mode == "Micro" else stops(desk, place) if place[0] == "P" else goes_ahead(desk)
            if not is_left:
                break
        return None


def are_accepted(desk: Desk, page: str, words: str, *commands: str) -> bool:
    """Plugs words at a page in place of what is there. Returns whether the bench accepts the commands that follow, which print nothing."""
    asked = [f"unplug {page}", f"words {page}\n{words}\nend", *commands]
    # If nothing is plugged there, `unplug` is refused.
    return not any(desk.bench.ask_all([command.encode() for command in asked])[1:])


def shows_nothing(desk: Desk) -> Optional[bool]:
    """Returns whether a program line that shows a number leaves the display empty, while nothing runs; None if it cannot be executed."""
    # Memory becomes sound, and has room for the line.
    divided = f"{desk.top - 1:03X}00{CONSTANT}{desk.top:03X}{desk.top - 1:03X}"
    stub = stub_of({REGISTER_C: divided, desk.top - 1: ZERO[:8] + LAST_END}, {}, None)
    commands = [f"call {PAGE}000", f"step {stub.steps}", "program\nPI\nVIEW X\nend", "step 2"]
    return desk.bench.ask_all([b"show display"])[0] == [""] if are_accepted(desk, PAGE, stub.text.rstrip("\n"), *commands) else None


def leaves_function(desk: Desk, place: str) -> bool:
    """Ends a function that runs at an address: it stops each program in memory, and jumps to the end. Returns whether this can be done."""
    at, page, memory = int(place[1:], 16), place[0], Memory(desk.look()["memory"], desk.top)
    if page < FIRST_PAGE or at + MOST_WORDS > PAGE_SIZE:
        return False
    # The base of arithmetic may be 10. After each of these words the carry is 0.
    end = jump(END_OF_FUNCTION)
    stub = writing(memory, STOP_BYTE, end) if memory.is_sound() else stub_of_words(end, 1)
    return are_accepted(desk, page, f"{rows_of(['0'] * at + [SETHEX])}\n{stub.text.strip()}", f"step {stub.steps + 1}")


def rows_of(words: list[str]) -> str:
    """Returns words as lines of a block."""
    return "\n".join(" ".join(words[at:at + IN_A_LINE]) for at in range(0, len(words), IN_A_LINE))


def stops(desk: Desk, place: str) -> bool:
    """Stops a program that runs in a page. Returns whether this can be done."""
    return are_accepted(desk, place[1], rows_of([STOP_WORD] * PAGE_SIZE), "step")


def goes_ahead(desk: Desk) -> bool:
    """Executes a program that runs in memory until it stops, or goes to a function or a page, or something is on the display. Returns
    whether this can be done without a line that may turn the display off."""
    for _ in range(MOST_AHEAD):
        traced, display, pos = desk.bench.ask_all([b"trace 1", b"show display", b"show pos"])
        if len(traced) != 1:
            return False
        text, (mode, place) = traced[0].split(" ", 2)[2], pos[0].split()
        if mode == "Idle":
            return not text.startswith(("OFF", "XEQ"))
        if display[0] or mode == "Micro" or place[0] == "P":
            return True
    return False
