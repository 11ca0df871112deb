"""Finds the return addresses of keystroke programs, which no view of the bench prints.

A bench beside the session executes it again up to a state. There all bytes of programs become those of RTN, so that each step goes to a
return address, and `show pos` prints it. A page gets these bytes when the position is in it, also if nothing is plugged there."""
from __future__ import annotations

from typing import TYPE_CHECKING, Iterable, Optional, Sequence

from .memory import Memory
from .paging import words_of
from .parts import refusal_of
from .repeating import MOST_AGAIN, Search
from .stubs import LDI, RAM_SLCT, WRIT_DATA, Stub, constant, stub_of_words

if TYPE_CHECKING:
    from .desk import Desk
    from .history import State

# How many return addresses a program has at most.
MOST = 6
# The byte of RTN, and a word that begins a program line with it.
RTN_BYTE, RTN_WORD = "85", "185"
# A page whose only program begins at 001. It has LBL 00 at 000, 001 and 003, a null at 002, and RTN at all addresses after them: the first
# words of a page with programs cannot be RTN. Without a return address, RTN goes to 001. No return address is there, because a line that
# calls a program has two bytes or more, and all are in its page.
START, PAGE_WORDS = "001", ["1", "1", "200", "1", *[RTN_WORD] * 4092]
# How many steps go from the first addresses to a return address, and how many from the others.
STEPS, ONE_STEP = {"000": 4, "001": 3, "002": 2, "003": 2}, 1
# The beginning of program memory, to which RTN goes there without a return address.
MEMORY_START = "0000"
# The first page that can be plugged.
FIRST_PAGE = "4"

A_IS_C_SX, B_IS_A_SX, C_IS_B_SX, M_IS_C, C_IS_M, A_PLUS_1_SX, A_BELOW_C_SX, RTN = 0x106, 0x086, 0x0C6, 0x158, 0x198, 0x166, 0x306, 0x3E0
# Jumps back over the nine instructions of the loop, which have ten words.
JC_LOOP = (0x80 - 9) * 8 + 7


def writing(memory: Memory, byte: str = RTN_BYTE, last_words: Sequence[int] = (RTN,)) -> Stub:
    """Returns words that fill program memory with a byte, up to `.END.`, whose three bytes stay, and the words after them."""
    divided = memory.divided()
    curtain, end = divided.curtain, divided.end
    last, = memory.part(end, end + 1)
    loop = [B_IS_A_SX, C_IS_B_SX, RAM_SLCT, C_IS_M, WRIT_DATA, A_PLUS_1_SX, LDI, curtain, A_BELOW_C_SX, JC_LOOP]
    count = curtain - end - 1
    filling = [*constant(byte * 7), M_IS_C, LDI, end + 1, A_IS_C_SX, *loop] if count else []
    ending = [LDI, end, RAM_SLCT, *constant(byte * 4 + last[8:]), WRIT_DATA, *last_words]
    # Each LDI has a second word, which is no step, and so has a jump.
    stub = stub_of_words([*filling, *ending], (3 if count else 1) + len(last_words) - 1)
    return stub._replace(steps=stub.steps + max(count - 1, 0) * (len(loop) - 1))


def text_at(lines: Iterable[tuple[int, str]], data: bytes, place: int) -> str:
    """Returns the text of the line that is executed from a place on: the line there, or the next one after null bytes; an empty text if
    there is none. `lines` are pairs of a place in `data` and a text."""
    at, text = next(((at, text) for at, text in lines if at >= place), (0, ""))
    return text if not any(data[place:at]) else ""


class Unreadable(Exception):
    """The return addresses cannot be found. The text says why, after "because"."""


class Returns(Search):
    """A search for the return addresses in a state of a session."""

    def __init__(self, source: Desk, number: int) -> None:
        """`source` is the desk of the session, and `number` that of the state."""
        super().__init__(source, number)
        self.pages = source.pages
        self.found: Optional[list[tuple[str, str]]] = None
        # Why they cannot be found.
        self.why = "" if self.repeat else f"the session has more than {MOST_AGAIN:,} steps"

    def find(self, desk: Desk) -> None:
        """Finds the positions and the texts of the lines to which the program returns."""
        try:
            self.found = self.addresses(desk)
        except Unreadable as reason:
            self.why = str(reason)

    def addresses(self, desk: Desk) -> list[tuple[str, str]]:
        """Returns the positions and the texts of the lines to which the program returns, the next one first. Raises Unreadable if they
        cannot be found."""
        state = desk.look()
        memory = Memory(state["memory"], desk.top)
        if state["pos"][0].startswith("Micro"):
            raise Unreadable("a function in microcode runs")
        if not memory.is_sound():
            raise Unreadable("memory is not sound")
        # What the pages contain is read before it is overwritten.
        images = dict(zip(state["pages"], desk.bench.ask_all([f"show image {page}".encode() for page in state["pages"]])))
        held = [(int(line[:4]), line[5:]) for line in state["lines"]]
        self.fill(desk, state, memory)
        return [(place, self.paged(place[1:], images) if place[0] == "P" else text_at(held, memory.program_bytes(), int(place)))
                for place in self.positions(desk, state["pos"][0].split()[1])]

    def paged(self, address: str, images: dict[str, list[str]]) -> str:
        """Returns the text of the line at an address of a page; an empty text if no line of the page's programs is there."""
        image = images.get(address[0], [])
        if not image or refusal_of(image):
            return ""
        found = self.pages.lines(address[0], tuple(image), int(address[1:], 16))
        lines = [(int(at[1:], 16), text) for at, text, *_ in found.lines]
        return text_at(lines, bytes(word & 0xFF for word in words_of(image)), int(address[1:], 16))

    @staticmethod
    def fill(desk: Desk, state: State, memory: Memory) -> None:
        """Stops the program, and fills program memory with RTN."""
        stub, page = writing(memory), next((page for page in "456789ABCDEF" if page not in state["pages"]), FIRST_PAGE)
        stopping = ["key R/S"] if state["pos"][0].startswith("Run") else []
        desk.bench.ask_all([f"unplug {page}".encode()])
        accepted(desk, *stopping, f"words {page}\n{stub.text}end", f"call {page}000", f"step {stub.steps}")

    @staticmethod
    def positions(desk: Desk, place: str) -> list[str]:
        """Returns the positions to which the program returns, the next one first, from the position at which it is."""
        filled, places = set[str](), list[str]()
        for _ in range(MOST + 1):
            page, address = place[1:2], place[2:]
            if place[0] == "P" and page not in filled:
                if page < FIRST_PAGE:
                    raise Unreadable(f"no line can be read at {place}")
                # If nothing is plugged there, `unplug` is refused.
                desk.bench.ask_all([f"unplug {page}".encode()])
                accepted(desk, f"words {page}\n" + "\n".join(" ".join(PAGE_WORDS[at:at + 32]) for at in range(0, len(PAGE_WORDS), 32)) + "\nend")
                filled.add(page)
            accepted(desk, f"step {STEPS.get(address, ONE_STEP) if place[0] == 'P' else ONE_STEP}")
            place = desk.bench.ask_all([b"show pos"])[0][0].split()[1]
            if place == MEMORY_START or place[0] == "P" and place[2:] == START:
                break
            places.append(place)
        return places


def accepted(desk: Desk, *commands: str) -> None:
    """Gives the bench commands that print nothing. Raises Unreadable if one of them is refused."""
    for command, reply in zip(commands, desk.bench.ask_all([command.encode() for command in commands])):
        if reply:
            raise Unreadable(f"the bench refused the command `{command.splitlines()[0]}`: {reply[0]}")
