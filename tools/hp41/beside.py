"""Finds out what an instruction or a program line will do: a bench beside the session executes it with the same registers."""
from typing import Callable, Optional, Protocol

from .decks import MEMORY, Failure
from .explaining import values_of
from .settings import CPU
from .stubs import Stub, sizes_of, stub_of

# The pages of the words that set the registers, and of the instruction.
SETTING, INSTRUCTION = "8", "9"
# How many lines `show cpu` prints.
CPU_LINES = 5
# The address of R00 on the bench beside the session.
R00 = sizes_of(MEMORY, None).address(0)


class Bench(Protocol):
    """A bench that is asked several commands at a time."""

    def ask_all(self, commands: list[bytes]) -> list[list[str]]:
        """Returns the lines that each of some whole commands prints."""

    def close(self) -> None:
        """Ends the bench."""


class Beside:
    """A bench beside the session. It is started when it is first asked."""

    def __init__(self, start: Callable[[], Bench]) -> None:
        """`start` starts a bench."""
        self.start = start
        self.bench: Optional[Bench] = None
        self.known: dict[tuple[str, ...], Optional[list[str]]] = {}
        self.ranges: dict[tuple[object, ...], Optional[bool]] = {}

    def after(self, words: str, cpu: list[str]) -> Optional[list[str]]:
        """Returns the lines of `show cpu` after an instruction, given by its words; `cpu` are these lines before it."""
        key = (words, *cpu)
        if key not in self.known:
            if len(self.known) > 100:
                self.known.clear()
            self.known[key] = self.asked(words, values_of(cpu))
        return self.known[key]

    def listed(self, words: str) -> Optional[str]:
        """Returns an instruction of two words as the bench lists it, without the address; None if it does not answer."""
        page = INSTRUCTION
        asked = ["reset", f"unplug {page}", f"words {page}\n{words}\nend", f"list {page}000 2"]
        try:
            self.bench = self.bench or self.start()
            lines = self.bench.ask_all([command.encode() for command in asked])[-1]
        except Failure:
            self.bench = None
            return None
        return lines[0][6:] if lines and not lines[0].startswith("! ") else None

    def asked(self, words: str, values: dict[str, str]) -> Optional[list[str]]:
        """Asks the bench; None if it does not answer, refuses a command, or does not have the registers before the instruction."""
        registers = {name: values[name.removeprefix("cpu.")] for name in CPU if name not in ("CY",)}
        stub = stub_of({}, registers, int(f"{INSTRUCTION}000", 16))
        # No word sets the key flag, but a key does.
        key = ["key 1"] if values["KF"] == "1" else []
        replies = self.answers(stub, [f"words {INSTRUCTION}\n{words}\nend", *key, f"call {SETTING}000", f"step {stub.steps}", "show cpu",
                                      "step", "show cpu"])
        if replies is None:
            return None
        *done, before, step, after = replies
        is_set = not any((*done, step)) and len(before) == len(after) == CPU_LINES
        found = values_of(before) if is_set else {}
        is_same = is_set and all(found[name.removeprefix("cpu.")] == value for name, value in {**registers, "KF": values["KF"]}.items())
        return after if is_same else None

    def is_over(self, line: str, memory: dict[int, str]) -> Optional[bool]:
        """Returns whether the result of a program line is out of range; None if this is not known. `memory` are the digits of registers,
        by their addresses, of which R00 is the one that the line names."""
        key = (line, *memory.items())
        if key not in self.ranges:
            if len(self.ranges) > 100:
                self.ranges.clear()
            stub = stub_of(memory, {}, None)
            replies = self.answers(stub, [f"call {SETTING}000", f"step {stub.steps}", f"program\n{line}\nend", "step", "show display"])
            self.ranges[key] = None if replies is None or any(replies[:-1]) else replies[-1] == ["OUT OF RANGE"]
        return self.ranges[key]

    def answers(self, stub: Stub, asked: list[str]) -> Optional[list[list[str]]]:
        """Returns the replies of the bench, with the words that set registers in a page; None if it does not answer or has no such page."""
        # The function of the previous question still runs, and `call` is refused while one runs: `reset` ends it.
        commands = ["reset", f"unplug {SETTING}", f"unplug {INSTRUCTION}", f"words {SETTING}\n{stub.text}end", *asked]
        try:
            self.bench = self.bench or self.start()
            # Before the first question nothing is plugged, and `unplug` is refused.
            reset, _, _, setting, *replies = self.bench.ask_all([command.encode() for command in commands])
        except Failure:
            self.bench = None
            return None
        return None if reset or setting else replies

    def close(self) -> None:
        """Ends the bench."""
        if self.bench:
            self.bench.close()
