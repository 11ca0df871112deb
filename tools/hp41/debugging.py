"""Debugging: a bench that executes steps until there is a reason to stop, and goes back to earlier steps.

A session is a deck. To go back, a new bench executes it again from its start, up to the step that is wanted."""
import re
from collections.abc import Callable, Iterator
from typing import NamedTuple

from .decks import words_of
from .session import Session
from .sourcing import bank_of
from .stepping import ENBANK, MICRO
from .values import lost_of

# The commands of a step, and the number of lines that they print: the instruction, `show cpu` and the next position.
STEP, CPU_LINES = b"trace 1\nshow cpu\nshow pos\n", 5

# The numbers of steps that the bench gets at a time: few at first, because it must not go far past a reason to stop.
FEWEST, MOST = 8, 512

# The number of bytes after which another bench goes on. A bench reads at most 67,108,864 bytes.
MOST_SENT = 60_000_000

POSITION = re.compile(r"(Micro|Run|Idle)\s(P?)([0-9A-F]{4})")
RETURNS = 4
FIELDS = {"ALL": (13, 0), "M": (12, 3), "S&X": (2, 0), "XS": (2, 2), "MS": (13, 13)}
DIGITS = 14


def banked(commands: list[bytes]) -> dict[str, set[int]]:
    """Returns the pages for which commands plug several banks, with these banks."""
    found: dict[str, set[int]] = {}
    for command in commands:
        words = words_of(command.split(b"\n")[0])
        if words[:1] in ([b"asm"], [b"words"], [b"image"]) and words[1:]:
            found.setdefault(words[1].decode().upper(), set()).add(bank_of(words))
    return {page: banks for page, banks in found.items() if len(banks) > 1}


class Point(NamedTuple):
    """A point of a session: the position that `show pos` prints, the active bank there, the lines of `show cpu`, and the values of
    registers of memory that are watched."""
    position: str
    bank: int
    cpu: tuple[str, ...]
    memory: tuple[str, ...]

    @property
    def mode(self) -> str:
        """Returns what runs: `Micro`, `Run` or `Idle`."""
        return self.position.split()[0]

    @property
    def address(self) -> int | None:
        """Returns the address of the next word; None if no function runs."""
        return int(self.position.split()[1], 16) if self.mode == "Micro" else None

    @property
    def returns(self) -> list[str]:
        """Returns the return addresses, the newest first."""
        return self.cpu[4].removeprefix("RTN=").split()

    def registers(self) -> dict[str, str]:
        """Returns the values of the processor's registers."""
        return dict(part.split("=") for line in self.cpu[:4] for part in line.split())


class Taken(NamedTuple):
    """A step that was taken: the points before and after it, the line of its instruction, and its refusal."""
    before: Point
    after: Point
    text: str
    refusal: str

    def lost(self) -> str:
        """Returns the return address that the step has dropped, because the four places were full; an empty text for other steps."""
        return "" if self.refusal else lost_of(self.before.cpu[4][4:], self.after.cpu[4][4:])


class Watch(NamedTuple):
    """A register or an address of memory whose changes are a reason to stop: its name, its name in `show cpu` or its address, and the
    places of the digits that count."""
    name: str
    key: str
    address: str
    first: int
    last: int

    def value(self, point: Point, addresses: list[str]) -> str:
        """Returns the digits at a point."""
        found = point.memory[addresses.index(self.address)][4:] if self.address else point.registers()[self.key]
        return found[DIGITS - 1 - self.first:DIGITS - self.last] if len(found) == DIGITS else found


class Machine:
    """A bench with a deck that it has executed, and the steps and commands since then.

    `banks` are the banks of those pages that have several."""

    def __init__(self, start: list[bytes], memory: str, banks: dict[str, set[int]]) -> None:
        """Starts a bench, which executes the commands of the deck."""
        self.start, self.memory = start, memory
        # The events since the start: numbers of steps, and commands.
        self.events: list[int | bytes] = []
        self.addresses: list[str] = []
        self.banks: dict[int, int] = {}
        # The lines that the deck has printed, and the number of steps for which the bench is ahead of `point`.
        self.told: list[str] = []
        self.ahead = 0
        self.session = self.started(False)
        # The words of the pages with several banks, by page and bank.
        self.pages = {page: {bank: words for bank in sorted(some) for words in [self.words_of(page, bank)] if words}
                      for page, some in banks.items()}
        self.point = self.look()

    def started(self, is_known: bool) -> Session:
        """Returns a bench that has executed the deck."""
        session = Session(self.memory, is_known)
        self.told = [line.decode("latin-1") for item in self.start for line in session.ask(item)]
        return session

    def words_of(self, page: str, bank: int) -> list[int]:
        """Returns the words of a bank of a page; an empty list if it is not plugged."""
        lines = self.ask(f"show image {page} b{bank}\n")
        data = bytes.fromhex("".join(lines)) if not lines[0].startswith("! ") else b""
        return [data[at] << 8 | data[at + 1] for at in range(0, len(data), 2)]

    def close(self) -> None:
        """Ends the bench, which an interrupt may have ended already."""
        try:
            self.session.close()
        except OSError:
            pass

    def ask(self, commands: str) -> list[str]:
        """Returns the lines that commands print which change nothing."""
        return [line.decode("latin-1") for line in self.session.ask_all(commands.encode("latin-1"))]

    @property
    def total(self) -> int:
        """Returns the number of steps since the start."""
        return sum(event for event in self.events if isinstance(event, int))

    def views(self) -> bytes:
        """Returns the commands that print the registers of memory that are watched."""
        return b"".join(b"show ram %s\n" % address.encode() for address in self.addresses)

    def look(self) -> Point:
        """Returns the point at which the bench is. Finds the active banks, because the steps before it may be unknown."""
        for page, banks in self.pages.items():
            self.banks[int(page, 16)] = self.active(page, banks)
        lines = self.ask((b"show cpu\nshow pos\n" + self.views()).decode())
        return self.point_of(lines[CPU_LINES], lines[:CPU_LINES], lines[CPU_LINES + 1:])

    def point_of(self, position: str, cpu: list[str], memory: list[str]) -> Point:
        """Returns a point from the lines that the bench prints."""
        found = POSITION.match(position)
        bank = self.banks.get(int(found[3][0], 16), 1) if found and found[1] == "Micro" else 1
        return Point(found[0] if found else position, bank, tuple(cpu), tuple(memory))

    def active(self, page: str, banks: dict[int, list[int]]) -> int:
        """Returns the active bank of a page: the one whose words `list` prints, at places where the words of the banks differ."""
        left = list(banks)
        if not left:
            return 1
        while left[1:]:
            one, other = banks[left[0]], banks[left[1]]
            place = next((at for at, (word, second) in enumerate(zip(one, other)) if word != second), None)
            if place is None:
                del left[1]
                continue
            line = self.ask(f"list {page}{place:03X} 1\n")[0]
            word = int(line.split()[1], 16) if not line.startswith("! ") else -1
            left = [bank for bank in left if banks[bank][place] == word] or left[:1]
        return left[0]

    # Steps.

    def steps(self, count: int) -> Iterator[Taken]:
        """Yields the next steps. The bench executes them in groups, so it may be further than the last one that was yielded."""
        size, done = FEWEST, 0
        while count > 0:
            if self.session.sent > MOST_SENT:
                self.renew(done)
            size = min(size, count, max(1, 45_000 // len(STEP + self.views())))
            lines = iter(self.ask(((STEP + self.views()) * size).decode()))
            for left in reversed(range(size)):
                taken = self.taken(lines)
                # After a refused step the bench is where it was, and all further steps of the group are refused too.
                self.point, self.ahead = taken.after, 0 if taken.refusal else left
                yield taken
                if taken.refusal:
                    return
            count -= size
            done += size
            size = min(2 * size, MOST)

    def renew(self, done: int) -> None:
        """Starts another bench at the same point, because one bench reads only so many bytes. `done` steps are not in the events yet."""
        self.close()
        self.session = self.started(True)
        for event in [*self.events, done]:
            self.session.ask(b"step %d" % event if isinstance(event, int) else event)

    def taken(self, lines: Iterator[str]) -> Taken:
        """Reads a step."""
        text, first = next(lines), next(lines)
        refusal = first if first.startswith("! ") else ""
        cpu = [next(lines) if refusal else first, *(next(lines) for _ in range(CPU_LINES - 1))]
        found = MICRO.fullmatch(text)
        bank = ENBANK.fullmatch(found[2]) if found and not refusal else None
        page = found[1][0] if found else ""
        if bank and int(bank[1]) in self.pages.get(page, {}):
            self.banks[int(page, 16)] = int(bank[1])
        position = next(lines)
        return Taken(self.point, self.point_of(position, cpu, [next(lines) for _ in self.addresses]), text, refusal)

    def advance(self, limit: int, reason_of: Callable[[Taken, int], str]) -> tuple[int, str]:
        """Executes steps until there is a reason to stop. Returns the number of steps, and the reason; an empty text if the limit was
        reached."""
        count, reason, before = 0, "", self.total
        for taken in self.steps(limit):
            count += not taken.refusal
            reason = taken.refusal or reason_of(taken, count)
            if reason:
                break
        self.add(count)
        if self.ahead:
            self.move(before + count)
        return count, reason

    def add(self, count: int) -> None:
        """Adds steps to the events."""
        if self.events and isinstance(self.events[-1], int):
            self.events[-1] += count
        elif count:
            self.events.append(count)

    def carry_out(self, command: bytes) -> list[str]:
        """Executes a command, and returns the lines that it prints."""
        lines = self.session.ask(command)
        self.events.append(command)
        self.point = self.look()
        return [line.decode("latin-1") for line in lines]

    def move(self, total: int) -> int:
        """Executes the session again, up to a number of steps. Returns the number of commands that are thereby undone."""
        kept: list[int | bytes] = []
        for event in self.events:
            done = sum(one for one in kept if isinstance(one, int))
            if isinstance(event, int):
                kept.append(min(event, total - done))
                if done + event >= total:
                    break
            else:
                kept.append(event)
        undone = sum(isinstance(event, bytes) for event in self.events[len(kept):])
        self.close()
        self.events, self.session, self.ahead = kept, self.started(True), 0
        for event in kept:
            self.session.ask(b"step %d" % event if isinstance(event, int) else event)
        self.point = self.look()
        return undone
