"""The steps of a call: each with its bank, label and source line, the jump target by its label, and what the step changed."""
import re
from collections.abc import Iterator
from typing import Any, NamedTuple

from .calls import Call, Caller
from .decks import NO_ANSWER, Failure, ended
from .linking import Linked
from .values import lost_of

MICRO = re.compile(r"Micro ([0-9A-F]{4}) (.*)")
LONG = re.compile(r"\?N?C (?:XQ|GO) ([0-9A-F]{4})")
SHORT = re.compile(r"JN?C ([+-])([0-9A-F]{2})")
ENBANK = re.compile("ENBANK([1-4])")

# The views after each step, how many lines they print, and how many steps are printed at most.
VIEWS, LINES = "show cpu\nshow stack\nshow flags\nshow alpha\nshow display\n", 13
MOST_TRACED = 20_000

# The column of the changes.
BESIDE = 58


class Step(NamedTuple):
    """A step: its address (None for a program line), the active bank of its page, the line that the bench printed, the values of all
    registers before and after it, and its refusal."""
    address: int | None
    bank: int
    text: str
    before: dict[str, Any]
    after: dict[str, Any]
    refusal: str


def lost_by(step: Step) -> str:
    """Returns the return address that a step has dropped because it pushed a fifth one; an empty text for other steps."""
    return "" if step.refusal or step.address is None else lost_of(step.before["RTN"], step.after["RTN"])


def losses_in(linked: Linked, steps: list[Step]) -> list[str]:
    """Returns a line about the first return address that some steps have lost; none if they have lost none."""
    lost = next((step for step in steps if lost_by(step)), None)
    return [f"the fourth return address was lost at {place_of(linked, lost)}: it was {lost_by(lost)}"] if lost else []


class Banks:
    """The active banks of the pages, as the traced instructions change them."""

    def __init__(self, linked: Linked) -> None:
        """Begins with bank 1 of each page."""
        self.active: dict[int, int] = {}
        self.plugged = {(int(unit.page, 16), unit.bank.bank) for unit in linked.units}

    def of(self, address: int) -> int:
        """Returns the active bank of the page of an address."""
        return self.active.get(address >> 12, 1)

    def follow(self, address: int, text: str) -> None:
        """Notes the bank that an instruction activates."""
        found = ENBANK.fullmatch(text)
        if found and (address >> 12, int(found[1])) in self.plugged:
            self.active[address >> 12] = int(found[1])


def memory_views(names: list[str]) -> str:
    """Returns the commands that print registers of memory."""
    return "".join(f"show ram {name}\n" for name in names)


def traced_deck(call: Call, steps: int, more: list[str]) -> str:
    """Returns the commands that perform a call step by step."""
    views = VIEWS + memory_views(more)
    ahead = f"step {call.before}\n" if call.before else ""
    return call.deck + ahead + views + f"trace 1\n{views}" * steps


def traced(caller: Caller, calls: list[tuple[Call, int]], more: list[str] | None = None) -> list[list[Step]]:
    """Returns the steps of calls, each of which takes so many steps. `more` are addresses of memory whose values belong to the state."""
    more = more or []
    calls = [(call, min(steps, MOST_TRACED)) for call, steps in calls]
    lines = caller.lines("".join(traced_deck(call, steps, more) for call, steps in calls))
    from .commands.trace import parts_of
    found: list[list[Step]] = []
    try:
        for _, steps in calls:
            found.append(list(steps_in(caller.linked, steps, lines, LINES + len(more), parts_of)))
    except RuntimeError as why:
        when = f"after it answered the steps of {len(found)} of {len(calls)} cases"
        raise Failure(f"{caller.linked.project.path}: {ended(caller.status, when)}", NO_ANSWER) from why
    return found


def steps_in(linked: Linked, steps: int, lines: Iterator[str], count: int, parts_of: Any) -> Iterator[Step]:
    """Yields the steps in the lines of the bench."""
    banks = Banks(linked)
    line = next(lines)
    while line.startswith("! "):
        line = next(lines)
    before = parts_of([line, *(next(lines) for _ in range(count - 1))])
    for _ in range(steps):
        line, first = next(lines), next(lines)
        refusal = first if first.startswith("! ") else ""
        after = parts_of([next(lines) if refusal else first, *(next(lines) for _ in range(count - 1))])
        found = MICRO.fullmatch(line)
        address = int(found[1], 16) if found else None
        text = found[2] if found else line
        yield Step(address, banks.of(address) if address is not None else 1, text, before, after, refusal)
        if address is not None and not refusal:
            banks.follow(address, text)
        before = after


def target_of(linked: Linked, step: Step, banks: dict[int, int]) -> str:
    """Returns the label of the target of a jump, after an arrow; an empty text for other instructions."""
    long, short = LONG.fullmatch(step.text), SHORT.fullmatch(step.text)
    if step.address is None:
        return ""
    if long:
        address = int(long[1], 16)
    elif short:
        address = step.address + (-1 if short[1] == "-" else 1) * int(short[2], 16) & 0xFFFF
    else:
        return ""
    bank = step.bank if address >> 12 == step.address >> 12 else banks.get(address >> 12, 1)
    name = linked.name_of(address, bank)
    return f" -> {name}" if name else ""


def place_of(linked: Linked, step: Step) -> str:
    """Returns the label and the source line of a step."""
    if step.address is None:
        return step.text
    name, origin = linked.name_of(step.address, step.bank), linked.origin_of(step.address, step.bank)
    return f"{name or f'{step.address:04X}'}{f' ({origin})' if origin else ''}"


def rows_of(linked: Linked, steps: list[Step]) -> Iterator[str]:
    """Yields the lines of a trace."""
    from .commands import trace
    names = [linked.name_of(step.address, step.bank) if step.address is not None else "" for step in steps]
    width = max(map(len, names), default=0)
    banks = Banks(linked)
    for step, name in zip(steps, names):
        if step.address is None:
            line = step.text
        else:
            bank = f" b{step.bank}" if linked.has_banks(step.address) else "   "
            line = f"{step.address:04X}{bank} {name:<{width}}  {step.text}{target_of(linked, step, banks.active)}"
            banks.follow(step.address, step.text)
        changes = [] if step.refusal else trace.changes_of(step.before, step.after)
        yield from trace.beside(line, changes, max(BESIDE, len(line) + 3 if changes else 0))
        if step.refusal:
            yield step.refusal
