"""The states of a session. The last ones are kept, and sent as differences, because a step changes little. Of each earlier one only its
place in the session is kept: tools/hp41/repeating.py executes the session again up to there."""
from array import array
from typing import Any, NamedTuple, Optional, TypedDict

# How many states are kept.
MOST_STATES = 2000

# Of a list that is at least as long, only the items that have changed are kept.
LONG = 16


# A state: what the views of the bench show, by name, as the page gets it.
State = dict[str, Any]


class Told(TypedDict):
    """States that are sent: the number of the state before the changes, this state or None, and the changes."""
    at: int
    base: Optional[State]
    changes: list[State]


def difference(old: State, new: State) -> State:
    """Returns what differs between two states: by name the new value, or for a long list the items that have changed, with their places."""
    change = {}
    for name, value in new.items():
        was = old.get(name)
        if was == value:
            continue
        change[name] = value
        if isinstance(value, list) and isinstance(was, list) and LONG <= len(value) == len(was):
            items = [[at, one] for at, (one, other) in enumerate(zip(value, was)) if one != other]
            if 2 * len(items) < len(value):
                change[name] = {"items": items}
    return change


def applied(state: State, change: State) -> State:
    """Returns the state after a change."""
    result = dict(state)
    for name, value in change.items():
        if isinstance(value, dict):
            result[name] = list(state[name])
            for at, one in value["items"]:
                result[name][at] = one
        else:
            result[name] = value
    return result


class Place(NamedTuple):
    """The place of a state in its session, and what no view of the bench shows of it."""
    # How many entries the session has, and how many steps of the last one were made, if it is being executed in pieces.
    entries: int
    steps: int = 0
    # How many steps were made since the state before.
    made: int = 0
    shift: bool = False
    program: bool = False
    # Whether a key had just turned the display on, and whether a program ran, or a function that a program had called.
    is_on: bool = False
    running: bool = False


class History:
    """The states of a session, numbered from 0. The last ones are kept, from `first` on; of the others, only the places are."""

    def __init__(self) -> None:
        """Begins without states."""
        self.first = 0
        self.base: Optional[State] = None
        self.last: Optional[State] = None
        self.changes: list[State] = []
        # What was amended of the last state: the next change names it.
        self.amended: set[str] = set()
        self.places = [array("I") for _ in Place._fields]

    @property
    def end(self) -> int:
        """The number of the last state."""
        return len(self.places[0]) - 1

    def place(self, number: int) -> Place:
        """Returns the place of a state."""
        entries, steps, made, *lights = (column[number] for column in self.places)
        return Place(entries, steps, made, *map(bool, lights))

    def is_read(self) -> bool:
        """Returns whether the last state is kept."""
        return self.base is not None and self.first + len(self.changes) == self.end

    def add(self, state: State, place: Place) -> None:
        """Adds a state, if it differs from the last one. If the last one was skipped, the state is that one, or the next."""
        if self.is_read() and self.base is not None and self.last is not None:
            change = difference(self.last, state)
            if not change:
                return
            self.skip(place)
            self.last = state
            self.changes.append({**change, **{name: state[name] for name in self.amended}})
            self.amended = set()
            if len(self.changes) >= MOST_STATES:
                self.base = applied(self.base, self.changes.pop(0))
                self.first += 1
            return
        if self.end < 0 or self.place(self.end)[:2] != place[:2]:
            self.skip(place)
        # Those that are kept have no gaps.
        self.first, self.base, self.last, self.changes, self.amended = self.end, state, state, [], set()

    def skip(self, place: Place) -> None:
        """Adds the place of a state that is not read."""
        for column, value in zip(self.places, place):
            column.append(value)

    def withdraw(self, entries: int) -> None:
        """Notes that the last entry, number `entries`, is replaced, because it was not executed: its states have the place before it."""
        for at in range(self.end, -1, -1):
            if self.places[0][at] != entries:
                break
            self.places[0][at] -= 1

    def state(self, number: int) -> Optional[State]:
        """Returns the state with a number; None if it is not kept."""
        at = number - self.first
        if self.base is None or not 0 <= at <= len(self.changes):
            return None
        state = self.base
        for change in self.changes[:at]:
            state = applied(state, change)
        return state

    def amend(self, number: int, known: State) -> None:
        """Adds values to a state that is kept, which were not known when it was read. The states after it stay as they are."""
        state, at = self.state(number), number - self.first
        if state is None or self.base is None:
            return
        if at == 0:
            self.base = {**self.base, **known}
        else:
            self.changes[at - 1] = {**self.changes[at - 1], **known}
        if at == len(self.changes):
            self.amended |= set(known)
        else:
            self.changes[at] = {**{name: state[name] for name in known}, **self.changes[at]}

    def told(self, known: Optional[int]) -> Told:
        """Returns the states after the one with the number `known`, or all that are kept if that one is not kept or there is none: the
        number of the state before the changes, this state or None, and the changes."""
        if known is not None and self.first <= known <= self.first + len(self.changes):
            return {"at": known, "base": None, "changes": self.changes[known - self.first:]}
        return {"at": self.first, "base": self.base, "changes": self.changes}
