"""Calls of a module's functions in one process of the bench: each begins with a reset, sets registers, and prints what is wanted."""
from __future__ import annotations

import subprocess
from collections.abc import Iterable, Iterator
from typing import NamedTuple

from .cases import TARGET, Case
from .counts import counted
from .decks import BENCH, LONGEST_DECK, NO_ANSWER, Failure, bytes_of, ended, hexadecimal, lines_of, refused, running, shown, with_keys
from .keyboard import KEYS
from .linking import Linked
from .matches import whole
from .programs import broken
from .projects import Project, nearest
from .refusals import OF_A_LINE
from .settings import CPU, DATA_NAME, FLAG_NAME, MEMORY_NAME, STACK, Setting
from .sources import text_in
from .stubs import JUNK, Sizes, junk_of, memory_of, sizes_of, stub_of
from .typed import NoKeys, Text, keys_of, pieces_of

# The steps after which a call is ended, if the case has no limit.
LIMIT = 100_000
MOST_STEPS = 9_999_999

# A run of the bench gets at most so many bytes of calls.
PIECE = LONGEST_DECK // 2


class Result(NamedTuple):
    """The result of a call: the number of its steps, why it ended (`Idle`, `Limit`, `Refused`), the refusal, and the values of the
    settings that were asked for."""
    steps: int
    reason: str
    refusal: str
    values: dict[str, str]


class Views:
    """The commands that print the values of some settings, and how their answers are read."""

    def __init__(self, names: Iterable[str], sizes: Sizes) -> None:
        """Takes the names of the settings, and the sizes of the calculator."""
        self.names = list(names)
        self.cpu = any(name in CPU for name in self.names)
        self.stack = any(name in STACK for name in self.names)
        self.others = list(dict.fromkeys(self.command(name, sizes) for name in self.names if name not in CPU and name not in STACK))
        self.asked = {name: self.command(name, sizes) for name in self.names if name not in CPU and name not in STACK}
        self.deck = "".join(f"show {view}\n" for view in ["cpu"] * self.cpu + ["stack"] * self.stack + list(filter(None, self.others)))

    @staticmethod
    def command(name: str, sizes: Sizes) -> str:
        """Returns the view of a setting; an empty text if `run` prints its value."""
        data = DATA_NAME.fullmatch(name)
        if data:
            return f"ram {sizes.address(int(data[1])):03X}"
        if MEMORY_NAME.fullmatch(name):
            return f"ram {name}"
        return "flags" if FLAG_NAME.fullmatch(name) else {"ALPHA": "alpha", "display": "display"}.get(name, "")

    def read(self, lines: Iterator[str]) -> dict[str, str]:
        """Returns the values, by their names."""
        found: dict[str, str] = {}
        if self.cpu:
            for _ in range(4):
                found.update((name, value) for part in next(lines).split() for name, value in [part.split("=")])
            next(lines)
            found["cpu.T"] = found.pop("T")
        if self.stack:
            found.update((name, value) for _ in range(5) for name, value in [next(lines).split("=")])
        answers = {view: next(lines) for view in self.others if view}
        for name, view in self.asked.items():
            if view == "flags":
                found[name] = str(int(name[1:] in answers[view].split()))
            elif view:
                found[name] = answers[view][4:] if view.startswith("ram") else answers[view]
        return {name: found[name] for name in self.names if name in found}


class Call:
    """A call: what it sets, the lines that perform it, and the steps that the bench needs before the function begins."""

    def __init__(self, caller: "Caller", case: Case, junk: dict[str, str] | None = None) -> None:
        """Makes the lines of a call. `junk` fills the registers that the case does not set."""
        self.case = case
        cpu = {one.name: one.value for one in case.before if one.name in CPU}
        check_registers(case, caller.sizes.data)
        self.junked = [name for name in JUNK if name not in cpu and junk and name in junk]
        cpu.update((name, value) for name, value in (junk or {}).items() if name in self.junked)
        target = caller.target(case)
        stub = stub_of(memory_of(case.before, caller.sizes), cpu, target)
        if stub.words > 0x1000:
            raise Failure(f"{case.name()}: found {len(case.before)} settings before ->, expected at most about 200: the words that set the "
                          "registers must fit into a page")
        self.before = stub.steps if target is not None else 0
        limit = next((int(one.value) for one in case.after if one.name == "steps" and one.value), None)
        self.limit = min((LIMIT if limit is None else max(LIMIT, limit)) + self.before, MOST_STEPS)
        self.deck = f"unplug {caller.page}\nwords {caller.page}\n{stub.text}end\n{caller.start}{caller.keys(case)}call {caller.page}000\n"
        if target is None:
            self.deck += f"step {stub.steps}\n{caller.key_line(case, 'call', f'XEQ {case.target}')}"


def check_registers(case: Case, size: int) -> None:
    """Raises Failure if a case sets or wants a data register that memory does not have."""
    for one in [*case.before, *case.after]:
        data = DATA_NAME.fullmatch(one.name)
        if data and int(data[1]) >= size:
            raise Failure(f"{case.name()}: found {one.name}, but memory has {size} data registers: use a lower one, or set `size` in the "
                          "project file")


class Caller:
    """Performs calls of a linked module."""

    def __init__(self, linked: Linked) -> None:
        """Checks the programs in memory. Raises Failure if the bench refuses one."""
        project = linked.project
        self.linked, self.page = linked, project.free_page()
        self.sizes = sizes_of(project.memory, project.size)
        self.junks: dict[int, dict[str, str]] = {}
        size = f"size {project.size}\n" if project.size is not None else ""
        self.start = f"reset\n{size}{''.join(program_block(path) for path in project.programs)}"
        if project.programs:
            check_programs(project, "".join(["reset\n", size]))
        self.addresses: dict[str, int] = {}
        # The status of the last run of the bench.
        self.status = 0

    def target(self, case: Case) -> int | None:
        """Returns the address that a case calls; None for a function that is called by its keys."""
        if case.target.startswith('"'):
            return None
        if case.target not in self.addresses:
            page, name = whole(TARGET, case.target).groups()
            label = self.linked.called(page, name)
            if isinstance(label, str):
                raise Failure(f"{case.called()}: {label}")
            if label.unit.bank.bank != 1:
                raise Failure(f"{case.called()}: the label is in bank {label.unit.bank.bank}, and a call begins "
                              "in bank 1: call a label of bank 1 that activates the bank")
            self.addresses[case.target] = label.address
        return self.addresses[case.target]

    def keys(self, case: Case) -> str:
        """Returns the line that presses the keys before a call."""
        asked = next((one.value for one in case.before if one.name == "keys"), None)
        return self.key_line(case, "keys", asked) if asked else ""

    def key_line(self, case: Case, what: str, asked: str) -> str:
        """Returns the line that presses keys, which a setting or a quoted name asks for."""
        try:
            pieces = pieces_of(asked)
            unknown = [piece for piece in pieces if not isinstance(piece, Text) and piece not in KEYS]
            if unknown:
                near = nearest(unknown[0], KEYS)
                raise NoKeys(f"no key is named {unknown[0]}{near and f', the nearest is {near}'}: `tools/keyboard text` shows the names; a "
                             "text needs quotes")
        except NoKeys as why:
            raise Failure(f"{case.path}:{case.number}: `{asked if what == 'call' else f'{what}={asked}'}`: {why}") from why
        if "ALPHA" not in pieces and sum(isinstance(piece, Text) for piece in pieces) < 2:
            return f"key {' '.join(keys_of(asked))}\n"
        # ALPHA may be on before a text.
        deck = self.linked.deck() + self.start.encode("latin-1") + f"key {asked}\n".encode("latin-1")
        return lines_of(with_keys(deck, self.linked.project.memory))[-1].decode("latin-1")

    def junk(self, seed: int | None) -> dict[str, str] | None:
        """Returns the junk of a seed; None without a seed."""
        if seed is None:
            return None
        if seed not in self.junks:
            self.junks[seed] = junk_of(seed)
        return self.junks[seed]

    def results(self, calls: list[tuple[Call, Views]]) -> list[Result]:
        """Performs calls, and returns their results. The bench runs once for every 33,554,432 bytes of calls."""
        found: list[Result] = []
        pieces: list[list[tuple[Call, Views]]] = [[]]
        size = 0
        for call, views in calls:
            size += len(call.deck)
            if size > PIECE:
                size = len(call.deck)
                pieces.append([])
            pieces[-1].append((call, views))
        for piece in pieces:
            deck = [f"{call.deck}run {call.limit}\n{views.deck}" for call, views in piece]
            lines = self.lines("".join(deck))
            for call, views in piece:
                try:
                    found.append(result_of(call, views, lines))
                except StopIteration as why:
                    when = f"after it answered {len(found)} of {counted(len(calls), '{} case', '{} cases')}, before {call.case.name()}"
                    raise Failure(f"{self.linked.project.path}: {ended(self.status, when)}", NO_ANSWER) from why
        return found

    def lines(self, deck: str) -> Iterator[str]:
        """Plugs the module, runs a deck, and returns the lines that it prints."""
        linked, first = self.linked, f"words {self.page}\n3E0\nend\n"
        known = all(unit.words for unit in linked.units)
        views = b"" if known else linked.views()
        ran = subprocess.run([BENCH, *running(linked.project.memory)], stdout=subprocess.PIPE,
                             input=linked.deck() + views + first.encode() + deck.encode("latin-1"))
        self.status = ran.returncode
        if ran.returncode == NO_ANSWER:
            raise Failure("./bench gave no answer: see its message above", NO_ANSWER)
        lines = iter(ran.stdout.decode("latin-1").split("\n"))
        if not known:
            linked.take(lines)
        return lines


def program_block(path: str) -> str:
    """Returns the block that loads the program in a file: a listing, or bytes."""
    if path.lower().endswith(".raw"):
        return "load\n" + b"\n".join(hexadecimal(bytes_of(path))).decode() + "\nend\n"
    return f"program\n{text_in(path).decode('latin-1').strip(chr(10))}\nend\n"


def check_programs(project: Project, before: str) -> None:
    """Raises Failure if the bench refuses a program in memory."""
    blocks = [(path, program_block(path).encode("latin-1")) for path in project.programs]
    found = refused(before.encode() + b"".join(text for _, text in blocks), project.memory)[1]
    if not found:
        return
    first, refusal = found[0][0] - before.count("\n"), found[0][2]
    for path, text in blocks:
        if first < text.count(b"\n"):
            break
        first -= text.count(b"\n")
    numbered = OF_A_LINE.fullmatch(refusal)
    if numbered:
        number, empty = int(numbered[1]), len(text_in(path)) - len(text_in(path).lstrip(b"\n"))
        line = shown(lines_of(text)[number].strip())
        raise Failure(f"{path}:{number + empty}: `{line}`: {refusal.rsplit(' ', 1)[0]}: expected a program line in the bench's spelling: "
                      "tools/import converts other spellings")
    why = (f": {broken(bytes_of(path))}" if refusal.startswith("! 14") and path.lower().endswith(".raw") else
           ": the programs do not fit into memory: set a smaller `size` in the project file" if refusal.startswith("! 16") else "")
    raise Failure(f"{path}: {refusal}{why}")


def result_of(call: Call, views: Views, lines: Iterator[str]) -> Result:
    """Reads the result of a call."""
    refusal, line = "", next(lines)
    while line.startswith("! "):
        refusal, line = refusal or line, next(lines)
    ran, count, reason = line.split()
    if reason == "Refused":
        stopped = next(lines)
        refusal = refusal or stopped
    return Result(int(count) - call.before, reason, refusal[2:], views.read(lines))


def compared(after: list[Setting], result: Result) -> list[tuple[Setting, str]]:
    """Returns the settings that are wanted and differ, each with the value that was found."""
    wrong = []
    for one in after:
        if one.name == "steps":
            is_good = result.steps <= int(one.value) if one.sign == "<=" else result.steps == int(one.value)
            found = str(result.steps)
        elif one.name == "refusal":
            found = result.refusal
            is_good = one.value in (result.refusal, *result.refusal.split())
        else:
            found = result.values.get(one.name, "")
            is_good = found == one.value
        if not is_good:
            wrong.append((one, found))
    return wrong


def ended_well(after: list[Setting], result: Result) -> bool:
    """Returns whether a call ended by itself, or by a refusal that is wanted."""
    return result.reason == "Idle" and not result.refusal or any(one.name == "refusal" for one in after)
