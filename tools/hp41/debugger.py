"""The commands of the debugger: steps forwards and backwards, breakpoints, watched registers, and views."""
from __future__ import annotations

import re
import sys
from collections.abc import Callable
from typing import Any

from .commands import trace
from .debugging import DIGITS, FIELDS, RETURNS, Machine, Point, Taken, Watch
from .decks import NO_ANSWER, Failure
from .settings import DATA_NAME, MEMORY_NAME, STACK, WIDE
from .sourcing import Places
from .stepping import VIEWS
from .typed import NoKeys, keys_of

# A command that runs ends after so many steps, if it has no other limit.
LIMIT, MOST_STEPS = 100_000, 9_999_999

# A reason to stop that is not printed.
DONE = "."

SMALL = ("G", "T", "ST", "P", "Q", "PT", "CY", "MODE", "RAM", "KY", "KF")
GROUPS = (WIDE[:3], WIDE[3:], SMALL[:6], SMALL[6:], ("RTN",), ("stack T", "stack Z", "stack Y", "stack X", "stack L"), ("flags",),
          ("ALPHA",), ("display",))
AROUND = 5

HELP = """\
step [N]        s   executes N instructions or program lines; the default is 1
next            n   the same for one, but a call runs until its return
finish          f   runs until the subroutine or function returns
continue [N]    c   runs until a reason to stop, at most N steps; the default is 100,000
back [N]        b   goes back N steps; the default is 1
break PLACE         stops at a label (LOOP, LOOP+2, MAIN.LOOP), an address (8013), a source line (main.asm:12),
                    or a program line: l 41, or p 8006 in a page
watch NAME [PLACES] stops when a register changes: A, X, R05, 00D, ST ..; PLACES: ALL, M, S&X, XS, MS, 5, or 12-3
breaks              lists breakpoints and watched registers
delete [N]          removes the one with this number, or all
registers       r   prints all registers; * follows those that the last command has changed
returns             prints the return addresses with their labels
list [PLACE]    l   prints the source around the next instruction, or around a place
explain         e   says what the next instruction or program line does, with the values that it finds
deck COMMAND        executes a command of the bench, for example: deck show flags, deck key R/S
more                executes the deck from the command at which the debugger stopped, up to its next step, run or trace
restart             goes back to the start
help            h   prints this list
quit            q   ends the debugger"""


def number_in(words: list[str], usual: int) -> int:
    """Returns the number of steps of a command."""
    if not words:
        return usual
    if words[1:] or not words[0].isdecimal() or not 1 <= int(words[0]) <= MOST_STEPS:
        raise Failure(f"found `{' '.join(words)}`, expected a number of steps from 1 to {MOST_STEPS:,}")
    return int(words[0])


def given(words: list[str]) -> str:
    """Returns what an error says of the words after a command."""
    return f"found `{' '.join(words)}`" if words else "found nothing"


class Debugger:
    """A debugger of a machine. `rest` are the commands of the deck that were not executed yet."""

    def __init__(self, machine: Machine, places: Places, rest: list[bytes]) -> None:
        """Begins at the point at which the machine is."""
        self.machine, self.places, self.rest = machine, places, rest
        self.breaks: dict[int, tuple[str, Any]] = {}
        self.state = self.views()
        self.changed: set[str] = set()
        self.commands: dict[str, Callable[[list[str]], None]] = {
            name: getattr(self, f"do_{name}") for name in
            ("step", "next", "finish", "continue", "back", "break", "watch", "breaks", "delete", "registers", "returns", "list", "explain",
             "deck", "more", "restart", "help")}
        self.short = {"s": "step", "n": "next", "f": "finish", "c": "continue", "b": "back", "r": "registers", "l": "list", "e": "explain",
                      "h": "help"}

    # What is printed.

    def views(self) -> dict[str, Any]:
        """Returns the values of all registers."""
        found: dict[str, Any] = trace.parts_of(self.machine.ask(VIEWS))
        return found

    def name(self, address: int, bank: int | None = None) -> str:
        """Returns the label of an address."""
        return self.places.name_of(address, self.bank_at(address, bank))

    def bank_at(self, address: int, bank: int | None) -> int:
        """Returns a bank, or the active bank of the page of an address if none is given."""
        return bank if bank else self.machine.banks.get(address >> 12, 1)

    def next_line(self) -> str:
        """Returns the position with its label, the next instruction with its words, and its source line."""
        point = self.machine.point
        if point.address is None:
            position = point.position.split()[1]
            lines = [] if position[:1] == "P" else self.machine.ask("show lines\n")
            return point.position + next((line[4:] for line in lines if line.startswith(f"{position} ")), "")
        line = self.listed(point.address)
        words = line[6:] if not line.startswith("! ") else line
        bank = f" b{point.bank}" if self.places.has_banks(point.address) else ""
        source = self.places.source_of(point.address, point.bank)
        address = f"{point.address:04X}"
        front = f"{address}{bank} {self.name(point.address, point.bank).removeprefix(address):<12}  {words}"
        return f"{front:<48}  {source}".rstrip()

    def listed(self, address: int) -> str:
        """Returns the instruction at an address, as the bench lists it, or the refusal."""
        lines = self.machine.ask(f"list {address:04X} 2\n")
        return self.machine.ask(f"list {address:04X} 1\n")[0] if lines[0].startswith("! 04") else lines[0]

    def tell(self, count: int, reason: str) -> None:
        """Prints why a command has stopped, the next instruction, and what has changed."""
        if reason not in ("", DONE):
            print(f"{count:,} step{'' if count == 1 else 's'}: {reason}")
        print(self.next_line())
        state = self.views()
        changes = trace.changes_of(self.state, state)
        self.changed = {name for name in state if state[name] != self.state[name]}
        self.state = state
        print(*(f"    {change}" for change in changes), sep="\n", end="\n" if changes else "")

    def return_to(self, address: str) -> str:
        """Returns a return address with its label, or what it means."""
        meanings = {"0000": "none", "00F0": "the end of the function"}
        return f"{address} {meanings.get(address) or self.name(int(address, 16))}".removesuffix(f" {address}")

    # Reasons to stop.

    def reason_of(self, taken: Taken) -> str:
        """Returns why the machine stops after a step; an empty text if it does not."""
        before, after = taken.before, taken.after
        lost = taken.lost()
        if lost and before.address is not None:
            return f"the fourth return address was lost at {self.name(before.address, before.bank)}: it was {lost}"
        for number, (kind, what) in self.breaks.items():
            if kind == "watch":
                old, new = (what.value(point, self.machine.addresses) for point in (before, after))
                if old != new:
                    where = self.name(before.address, before.bank) if before.address is not None else taken.text
                    return f"{number}: {what.name} {old} -> {new} by {where}"
        if before.mode != "Idle" and after.mode == "Idle":
            return "the function has ended" if before.mode == "Micro" else "the program has stopped"
        if before.mode == "Micro" and after.mode == "Run":
            return "the function has ended"
        return next((f"{number}: break at {self.shown(what)}" for number, (kind, what) in self.breaks.items()
                     if kind == "break" and self.is_at(after, what)), "")

    @staticmethod
    def is_at(point: Point, what: Any) -> bool:
        """Returns whether a point is at the place of a breakpoint."""
        if isinstance(what, str):
            return point.address is None and point.position.split()[1] == what
        address, bank = what
        return point.address == address and bank in (None, point.bank)

    def shown(self, what: Any) -> str:
        """Returns a place for a message."""
        return what if isinstance(what, str) else self.name(*what)

    def run(self, limit: int, reason_of: Callable[[Taken, int], str]) -> None:
        """Executes steps until one of the usual reasons to stop, or another one."""
        if self.machine.point.mode == "Idle" and limit > 1:
            raise Failure("nothing runs: start a function or program first, for example with the command `deck key R/S`")
        count, reason = self.machine.advance(limit, lambda taken, count: self.reason_of(taken) or reason_of(taken, count))
        self.tell(count, reason or ("not ended yet: continue goes on" if limit >= LIMIT else ""))

    # Commands. Each gets the words after its name.

    def do_step(self, words: list[str]) -> None:
        """Executes some instructions or program lines."""
        self.run(number_in(words, 1), lambda taken, count: "")

    def do_continue(self, words: list[str]) -> None:
        """Runs until there is a reason to stop."""
        self.run(number_in(words, LIMIT), lambda taken, count: "")

    def do_next(self, words: list[str]) -> None:
        """Executes one instruction; a call runs until its return."""
        self.none(words)
        start, goal = self.machine.point, []

        def reason(taken: Taken, count: int) -> str:
            """Returns that the step was no call, or that the call has returned."""
            after = taken.after
            if count == 1:
                if after.returns[1:] != start.returns[:RETURNS - 1] or " XQ " not in taken.text:
                    return DONE
                goal.append(after.returns[0])
            is_back = after.address == int(goal[0], 16) and after.returns[:3] == start.returns[:3]
            return DONE if is_back and count > 1 else ""
        if start.address is None:
            return self.do_step([])
        return self.run(LIMIT, reason)

    def do_finish(self, words: list[str]) -> None:
        """Runs until the subroutine or function returns."""
        self.none(words)
        returns = self.machine.point.returns
        if self.machine.point.address is None:
            raise Failure("no function runs: finish is for microcode")
        self.run(LIMIT, lambda taken, count: DONE if taken.after.address == int(returns[0], 16)
                 and taken.after.returns[:3] == returns[1:] else "")

    def do_back(self, words: list[str]) -> None:
        """Goes back some steps."""
        count, total = number_in(words, 1), self.machine.total
        if not total:
            raise Failure("no step has been executed, so none can be undone")
        undone = self.machine.move(max(total - count, 0))
        if undone:
            print(f"undone: {undone} command{'s' if undone > 1 else ''} after this step")
        self.tell(min(count, total), f"back at step {self.machine.total:,}")

    def do_restart(self, words: list[str]) -> None:
        """Goes back to the start."""
        self.none(words)
        self.machine.events = []
        self.machine.move(0)
        self.tell(0, DONE)

    def do_break(self, words: list[str]) -> None:
        """Sets a breakpoint."""
        if words[:1] in (["l"], ["p"]) and len(words) == 2:
            is_line = words[0] == "l"
            if not re.fullmatch("[0-9]{1,4}" if is_line else "[0-9A-Fa-f]{4}", words[1]):
                wanted = "a position of up to four decimal digits" if is_line else "an address of four hexadecimal digits"
                raise Failure(f"found `{words[1]}`, expected {wanted}")
            return self.add("break", f"{int(words[1]):04}" if is_line else f"P{words[1].upper()}")
        if len(words) != 1:
            raise Failure(f"{given(words)}, expected a label, an address, a line of a source, or a program line (l 41, p 8006), for "
                          "example: break LOOP")
        return self.add("break", self.places.find(words[0]))

    def do_watch(self, words: list[str]) -> None:
        """Watches a register or an address of memory."""
        if not 1 <= len(words) <= 2:
            raise Failure(f"{given(words)}, expected a register, for example: watch C S&X")
        name = "cpu.T" if words[0].lower() == "cpu.t" else words[0].upper()
        data, address = DATA_NAME.fullmatch(name), ""
        if name in STACK:
            address = f"{STACK[name]:03X}"
        elif data:
            # Register c has the address of R00.
            address = f"{int(self.machine.ask('show ram 00D')[0][12:15], 16) + int(data[1]):03X}"
        elif MEMORY_NAME.fullmatch(name):
            address = name
        elif name not in ("cpu.T", *WIDE, *SMALL):
            raise Failure(f"found `{words[0]}`, expected a register such as C, ST, X, R05, or an address of memory such as 00D")
        first, last = self.places_in(words[1]) if words[1:] else FIELDS["ALL"]
        if address and address not in self.machine.addresses:
            self.machine.addresses.append(address)
            self.machine.point = self.machine.look()
        self.add("watch", Watch(name, name.removeprefix("cpu."), address, first, last))

    @staticmethod
    def places_in(text: str) -> tuple[int, int]:
        """Returns the first and the last place of a field."""
        if text.upper() in FIELDS:
            return FIELDS[text.upper()]
        found = re.fullmatch("([0-9]{1,2})(?:-([0-9]{1,2}))?", text)
        first, last = (int(found[1]), int(found[2] or found[1])) if found else (0, 1)
        if not DIGITS > first >= last:
            raise Failure(f"found `{text}`, expected ALL, M, S&X, XS, MS, a place from 0 to 13, or two places, the higher one first, such "
                          "as 12-3")
        return first, last

    def add(self, kind: str, what: Any) -> None:
        """Adds a breakpoint or a watched register."""
        number = max(self.breaks, default=0) + 1
        self.breaks[number] = kind, what
        print(self.row(number))

    def row(self, number: int) -> str:
        """Returns the line of a breakpoint or a watched register."""
        kind, what = self.breaks[number]
        if kind == "watch":
            places = "" if (what.first, what.last) == FIELDS["ALL"] else f", places {what.first} to {what.last}"
            return f"{number}: watch {what.name}{places}"
        if isinstance(what, str):
            return f"{number}: break at the program line {what}"
        source = self.places.source_of(what[0], what[1] or 1)
        name = self.shown(what).removeprefix(f"{what[0]:04X}")
        return f"{number}: break at {what[0]:04X}{f' {name}' if name else ''}{f'  {source}' if source else ''}"

    def do_breaks(self, words: list[str]) -> None:
        """Lists breakpoints and watched registers."""
        self.none(words)
        print(*map(self.row, self.breaks) if self.breaks else ["none"], sep="\n")

    def do_delete(self, words: list[str]) -> None:
        """Removes breakpoints and watched registers."""
        wrong = next((word for word in words if not word.isdecimal() or int(word) not in self.breaks), None)
        if wrong is not None:
            known = f"one of {', '.join(map(str, self.breaks))}" if self.breaks else "there is none"
            raise Failure(f"found `{wrong}`, expected a number that `breaks` prints: {known}")
        for number in {int(word) for word in words} or list(self.breaks):
            del self.breaks[number]

    def do_registers(self, words: list[str]) -> None:
        """Prints all registers."""
        self.none(words)
        for group in GROUPS:
            shown = []
            for name in group:
                value = " ".join(sorted(self.state[name])) if name == "flags" else self.state[name]
                shown.append(f"{name}={value}{'*' if name in self.changed else ''}")
            print("  ".join(shown))

    def do_returns(self, words: list[str]) -> None:
        """Prints the return addresses."""
        self.none(words)
        print(*(self.return_to(address) for address in self.machine.point.returns), sep="\n")

    def do_list(self, words: list[str]) -> None:
        """Prints the source around an address."""
        point = self.machine.point
        address, bank = self.places.find(words[0]) if len(words) == 1 else (point.address, point.bank)
        if words[1:] or address is None:
            raise Failure(f"{given(words)}, expected a place{'' if words else ', because no instruction of a page is next'}, for example: "
                          "list LOOP")
        part = self.places.part_at(address, self.bank_at(address, bank))
        row = part.row_at(address & 0xFFF) if part else None
        if part is None:
            raise Failure(f"no source is known at {address:04X}, expected an address in a page that was assembled from a source")
        if row is None:
            raise Failure(f"no source line is at {address:04X}, expected an address of a word that the source of page {address >> 12:X} has")
        at = part.rows.index(row)
        for path, number, text in part.rows[max(at - AROUND, 0):at + AROUND + 1]:
            print(f"{'>' if (path, number) == row[:2] else ' '} {number:>4}  {text}".rstrip())

    def do_explain(self, words: list[str]) -> None:
        """Prints what the next instruction or program line does, in a sentence."""
        self.none(words)
        point = self.machine.point
        line = self.next_line() if point.address is None else f"{point.position} {self.listed(point.address)[15:]}"
        print(*trace.explained(line, self.state, {}) or ["    no sentence is known for it"], sep="\n")

    def do_deck(self, words: list[str]) -> None:
        """Executes a command of the bench."""
        if not words:
            raise Failure("found nothing, expected a command of the bench, for example: deck show flags")
        if words[0] in ("words", "image", "asm", "load", "program"):
            raise Failure(f"`{words[0]}` opens a block, expected a command of one line: put the block into the deck")
        try:
            line = f"key {' '.join(keys_of(' '.join(words[1:])))}" if words[0] == "key" else " ".join(words)
        except NoKeys as why:
            raise Failure(str(why)) from why
        if words[0] == "show":
            print(*self.machine.ask(f"{line}\n"), sep="\n")
        elif words[0] in ("step", "run", "trace"):
            raise Failure(f"found `deck {line}`, which the debugger cannot undo: use its own step, continue or back")
        else:
            lines = self.machine.carry_out(line.encode("latin-1"))
            print(*lines, sep="\n", end="\n" if lines else "")
            self.tell(0, DONE)

    def do_more(self, words: list[str]) -> None:
        """Executes the deck up to its next step, run or trace."""
        self.none(words)
        if not self.rest:
            raise Failure("every command of the deck is already executed: use `deck COMMAND` for another one, or `restart`")
        ran = (b"step", b"run", b"trace")
        self.rest = self.rest[1:] if self.rest[0].split()[0] in ran else self.rest
        while self.rest and self.rest[0].split()[0] not in ran:
            lines = self.machine.carry_out(self.rest.pop(0))
            print(*lines, sep="\n", end="\n" if lines else "")
        self.tell(0, DONE)

    def do_help(self, words: list[str]) -> None:
        """Prints the commands."""
        self.none(words)
        print(HELP)

    @staticmethod
    def none(words: list[str]) -> None:
        """Refuses words after a command that takes none."""
        if words:
            raise Failure(f"found `{' '.join(words)}`, expected nothing after this command")

    # The loop.

    def carry_out(self, line: str) -> bool:
        """Executes a line. Returns whether the debugger goes on."""
        name, *words = line.split()
        if name in ("quit", "q"):
            return False
        try:
            command = self.commands.get(self.short.get(name, name))
            if command is None:
                raise Failure(f"`{name}`: no such command: help lists them")
            command(words)
        except Failure as why:
            if why.status == NO_ANSWER:
                raise
            print(f"? {why}")
        except KeyboardInterrupt:
            print()
            self.machine.move(self.machine.total)
            self.tell(0, "interrupted; this is where the command began")
        return True

    def completed(self, text: str, line: str) -> list[str]:
        """Returns the words that can complete a text in a line."""
        words = line.split(" ")
        names = {"break": self.places.labels, "list": self.places.labels, "l": self.places.labels, "watch": [*WIDE, *SMALL, *STACK]}
        known = [*self.commands, "quit"] if len(words) < 2 else names.get(words[0], []) if len(words) == 2 else FIELDS
        return sorted(name for name in known if name.startswith(text))


def loop(debugger: Debugger) -> int:
    """Reads commands up to `quit` or the end of the input. At a terminal an empty line repeats a step."""
    is_terminal = sys.stdin.isatty()
    if is_terminal:
        import readline
        readline.set_completer_delims(" ")
        readline.set_completer(
            lambda text, state: dict(enumerate(debugger.completed(text, readline.get_line_buffer().lstrip()))).get(state))
        readline.parse_and_bind("tab: complete")
    print(*debugger.machine.told, sep="\n", end="\n" if debugger.machine.told else "")
    print(debugger.next_line())
    last = ""
    while True:
        try:
            line = input("> ") if is_terminal else sys.stdin.readline()
        except EOFError:
            line = ""
            print()
            break
        except KeyboardInterrupt:
            print()
            continue
        if not is_terminal and not line:
            break
        line = line.strip() or (last if is_terminal else "")
        last = line if line.split(" ")[0] in ("s", "step", "n", "next", "c", "continue", "b", "back") else ""
        if line and not debugger.carry_out(line):
            break
        sys.stdout.flush()
    return 0
