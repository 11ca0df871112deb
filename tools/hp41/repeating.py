"""Executes a session again: on a new bench, because one bench reads only so many bytes, and on a bench beside it, for states that are not
kept."""
from __future__ import annotations

import time
from typing import TYPE_CHECKING, Iterator, Optional

from .benches import Bench
from .history import History, Place, State, Told, difference
from .parts import MOST_STEPS, NO_END, Part, parts_of

if TYPE_CHECKING:
    from .desk import Desk

# How many bytes of commands a bench is given before it is asked. The bench must be able to read them while its replies wait.
MOST_BYTES = 30_000
# How many steps are made in a piece of a run.
MOST_PIECE = 200_000
# A session with more steps is not executed again for a search.
MOST_AGAIN = MOST_STEPS // 10
# How many states before and after a state are read with it.
AROUND = 40


def pieces(bench: Bench, part: Part) -> Iterator[None]:
    """Executes a run, or steps, in pieces; yields after each. A trace prints nothing that is needed here, so it is executed as steps."""
    left = part.left
    while left:
        count = min(left, MOST_PIECE)
        reply, = bench.ask_all([b"%s %d" % (b"run" if part.kind == "run" else b"step", count)])
        yield
        left -= count
        if not reply[0].endswith(" Limit") if part.kind == "run" else reply:
            return


def repeated(bench: Bench, texts: list[bytes]) -> Iterator[None]:
    """Gives a bench the commands of a session, by the texts of its entries; yields after each group or piece."""
    group: list[bytes] = []
    size = 0
    for part in (part for text in texts for part in parts_of(text, True) if part.is_command and not part.is_open):
        if group and (part.kind or size + len(part.text) > MOST_BYTES):
            bench.ask_all(group)
            yield
            group, size = [], 0
        if part.kind:
            yield from pieces(bench, part)
        else:
            group.append(part.text.rstrip(b"\n"))
            size += len(part.text)
    if group:
        bench.ask_all(group)
        yield


def is_over(work: Iterator[None], until: Optional[float]) -> bool:
    """Goes on with some work until a time, or to its end without one. Returns whether it is at its end."""
    for _ in work:
        if until is not None and time.monotonic() >= until:
            return False
    return True


class Repeat:
    """A desk beside that of the session. It executes the session up to states that are not kept, and reads them."""

    def __init__(self, source: Desk, desk: Desk) -> None:
        """`source` is the desk of the session, and `desk` an empty one with the same memory."""
        self.source, self.session, self.desk = source, source.number, desk
        # The numbers of the first and the last state that are wanted, the states found so far, and what is left to do.
        self.first, self.last = 0, -1
        self.found: list[State] = []
        self.work: Iterator[None] = iter(())

    def want(self, number: int) -> None:
        """Asks for a state, with some before it and after it."""
        if self.first <= number <= self.last:
            return
        at = self.first + len(self.found)
        first, self.last = max(0, number - AROUND), min(self.source.history.end, number + AROUND)
        if at > number or not self.found:
            self.desk.begin()
            self.first, self.found = first, []
        elif at >= first:
            # The last one that was found is the one before.
            self.first, self.found = at - 1, self.found[-1:]
        else:
            self.first, self.found = first, []
        self.work = self.states()

    def go(self, seconds: float) -> Optional[Told]:
        """Goes on for about `seconds`. Returns the states, or None if they are not all read."""
        if not is_over(self.work, time.monotonic() + seconds):
            return None
        changes = [difference(old, new) for old, new in zip(self.found, self.found[1:])]
        return {"at": self.first, "base": self.found[0], "changes": changes}

    def states(self) -> Iterator[None]:
        """Reads the wanted states; yields after each piece."""
        for number in range(self.first + len(self.found), self.last + 1):
            place = self.source.history.place(number)
            yield from self.reach(place)
            lights, self.desk.history = self.desk.lights, History()
            lights.shift, lights.program, lights.is_on, lights.running = place.shift, place.program, place.is_on, place.running
            self.found.append({**self.desk.look(), "made": place.made})
            yield

    def reach(self, place: Place) -> Iterator[None]:
        """Executes the session up to a place; yields after each piece."""
        desk, log = self.desk, self.source.log
        if desk.queue and (place.entries > len(desk.log) or not place.steps):
            part = desk.queue.pop(0)
            while part.left:
                desk.carry_out(part, None)
                yield
            desk.log[-1] = log[len(desk.log) - 1]
        others = log[len(desk.log):place.entries - (place.steps > 0)]
        yield from repeated(desk.bench, [entry.text for entry in others if entry.reply != [NO_END]])
        for entry in others:
            desk.log.append(entry)
            for part in parts_of(entry.text, True):
                part.entry = entry
                desk.keep_up(part, entry)
        if not place.steps:
            return
        desk.queue = desk.queue or parts_of(log[place.entries - 1].text, True)
        part = desk.queue[0]
        while part.left and part.asked < place.steps:
            desk.carry_out(part, place.steps - part.asked)
            yield

    def close(self) -> None:
        """Ends its bench."""
        self.desk.bench.close()


class Search:
    """A search for something in a state of a session, which no view of the bench prints. It changes a bench beside the session, which has
    executed the session again up to this state."""

    def __init__(self, source: Desk, number: int) -> None:
        """`source` is the desk of the session, and `number` that of the state. Nothing is found in a session of more than MOST_AGAIN
        steps."""
        self.key = source.number, number
        self.repeat: Optional[Repeat] = None
        self.work: Iterator[None] = iter(())
        if source.made <= MOST_AGAIN:
            self.repeat = Repeat(source, source.another())
            self.work = self.repeat.reach(source.history.place(number))

    def go(self, seconds: float) -> bool:
        """Goes on for about `seconds`. Returns whether the search is at its end."""
        if not is_over(self.work, time.monotonic() + seconds):
            return False
        if self.repeat:
            self.find(self.repeat.desk)
            self.close()
        return True

    def find(self, desk: Desk) -> None:
        """Finds what is searched, on the desk beside that of the session."""
        raise NotImplementedError

    def close(self) -> None:
        """Ends its bench."""
        if self.repeat:
            self.repeat.close()
        self.repeat = None


class Renewal:
    """A new bench that gets the session so far, because the old one has read nearly as many bytes as a bench reads."""

    def __init__(self, bench: Bench, texts: list[bytes]) -> None:
        """`texts` are those of the entries of the session."""
        self.bench, self.work = bench, repeated(bench, texts)

    def is_over(self, until: Optional[float]) -> bool:
        """Goes on until a time, or to the end without one. Returns whether the new bench is where the old one is."""
        return is_over(self.work, until)
