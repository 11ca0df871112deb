"""Presses keys, runs the programs that they start, and reports what these show and why they stopped: for tools/play."""
import re
from functools import cached_property
from typing import Callable, Iterator, Optional, Sequence

from .alpha import ALPHA_ON, PROBES, takes_letters, typed_keys
from .decks import KEY_NOT_HELD, MAIN_START, Failure, answered, ended, items_of, lines_of
from .functions import Functions
from .matches import whole
from .programs import numbered
from .spellings import read_tables
from .typed import Text
from .values import text_of

SHOWS = re.compile(r"VIEW .*|AVIEW|PROMPT|PSE")
STOPS = re.compile(r"STOP|RTN|END|\.END\.|OFF")
CALLED = re.compile(r'XEQ "(.*)"')
# The register that a line names: directly, or after IND.
OPERAND = re.compile(r"(?:(?:RCL|STO|ST[-+*/]|VIEW|ASTO|ARCL|ISG|DSE|X<>) |\S+ IND )([0-9]{2}|[TZYXL])")
RAN = re.compile(r"ran ([0-9]+) ([A-Z][a-z]+)")
TRACED = re.compile(r"(Run|Idle) (P?[0-9A-F]{4}) (.*)")
LABEL_OF = re.compile(r'XEQ (".*"|[0-9]{2,3}|[A-Za-z])')
STACK = "TZYXL"
FAULTS = ("ALPHA DATA", "DATA ERROR", "OUT OF RANGE", "NONEXISTENT")

# How many return addresses are kept.
MOST_RETURNS = 6

# The answers at the end of a run: why it stopped, and the refusal if there is one, then the views.
VIEWS = ("show display", "show pos", "show ram 003", "show ram 002")


class Lines:
    """The lines of program memory by position, and the lines of pages that were executed. `skipped` has the texts of lines that were
    replaced, by their numbers, counted from 0."""

    def __init__(self, shown_lines: list[str], told: Callable[[str], str], skipped: dict[int, str]) -> None:
        """Takes the lines that the bench lists, and the function that adds the name of a function of a module to a line."""
        self.told = told
        rows = [(line[:4], line[5:]) for line in shown_lines]
        self.skipped = {rows[at][0]: text for at, text in skipped.items() if at < len(rows)}
        self.texts = {place: self.skipped.get(place, text) for place, text in rows}
        self.numbers = dict(zip(self.texts, (number for number, _ in numbered(rows))))

    def at(self, position: str) -> str:
        """Returns the position of the line at or after a position in memory. Positions in pages are not changed."""
        if position.startswith("P") or position in self.texts:
            return position
        return min((found for found in self.texts if position < found < "P"), default=position)

    def name(self, position: str) -> str:
        """Returns a line for a message."""
        position = self.at(position)
        text = self.told(self.texts.get(position, "?"))
        return f"{position}, {text}" if position.startswith("P") else f"line {self.numbers.get(position, '?')}, {text}"

    def function(self, text: str) -> str:
        """Returns the function of a line. A call of a function by its name is that function."""
        called = CALLED.fullmatch(text)
        if called is None or f'LBL "{called[1]}"' in self.texts.values():
            return text
        return called[1]


class Run:
    """What a key has run: the number of steps, why it stopped, and the refusal if there is one."""

    def __init__(self, answer: list[bytes]) -> None:
        """Reads the answer to the command `run`."""
        found = whole(RAN, answer[0].decode())
        self.steps, self.reason = int(found[1]), found[2]
        self.refusal: Optional[str] = answer[1].decode() if len(answer) > 1 else None
        # The numbers of the steps that show a text, notes by the numbers of steps, the position of the last line, the lines of memory,
        # and the address of R00.
        self.shows: list[int] = []
        self.notes: list[tuple[int, str]] = []
        self.last: Optional[str] = None
        self.lines, self.curtain = Lines([], str, {}), 0


class Returns:
    """The number of return addresses that are kept, which no command shows."""

    def __init__(self) -> None:
        """Begins without return addresses."""
        self.kept = 0
        self.texts: Optional[dict[str, str]] = None

    def press(self, before: str, key: str, run: Run) -> None:
        """Follows a key. `before` is the key before it. XEQ of a label, RTN, and changed lines remove all return addresses."""
        is_started = run.steps and key != "R/S"
        if is_started or (before, key) == ("SHIFT", "EEX") or self.texts not in (None, run.lines.texts):
            self.kept = 0
        self.texts = dict(run.lines.texts)

    def step(self, text: str, after: tuple[str, str]) -> bool:
        """Follows a line: its text, and the position and the text of the line after it. Returns whether a return address is lost."""
        if text[:1] not in ("X", "R", "E", "."):
            return False
        called = LABEL_OF.fullmatch(text)
        place, following = after
        is_call = called and following == f"LBL {called[1]}" or text.startswith("XEQ IND") and following.startswith("LBL ")
        if is_call or text.startswith("XROM ") and place.startswith("P") and following.startswith('LBL "'):
            self.kept += 1
        elif text in ("RTN", "END", ".END."):
            self.kept = max(0, self.kept - 1)
        is_lost, self.kept = self.kept > MOST_RETURNS, min(self.kept, MOST_RETURNS)
        return is_lost


class Round:
    """A deck that is executed first, and keys with texts among them. The first `known` of these pieces are not reported."""

    def __init__(self, begin: bytes, pieces: list[str], known: int = 0) -> None:
        """Takes the deck and the keys."""
        self.begin, self.pieces, self.known = begin, pieces, known
        self.letters = {at: False for at, piece in enumerate(pieces) if isinstance(piece, Text)}
        self.runs: list[Run] = []
        self.refusal: Optional[str] = None

    def keys(self, first: Optional[int] = None) -> list[str]:
        """Returns the names of the keys of the first pieces, or of all."""
        return [key for at, piece in enumerate(self.pieces[:first])
                for key in (typed_keys(piece, self.letters[at]) if at in self.letters else [piece])]

    @property
    def told(self) -> int:
        """How many keys are not reported."""
        return len(self.keys(self.known))


# A command that presses keys: the number of its piece, whether it presses a key, and the command.
Pressing = tuple[int, bool, str]


class Player:
    """Presses keys after programs that are loaded. `skipped` are lines that were replaced, by their numbers, counted from 0."""

    def __init__(self, steps: int, memory: str, skipped: Optional[dict[int, str]] = None) -> None:
        """Takes the most steps after a key, and the number of registers of memory."""
        self.steps, self.memory, self.skipped = steps, memory, skipped or {}
        # The functions that the decks give.
        self.begin = b""

    @cached_property
    def functions(self) -> Functions:
        """The known functions of modules."""
        shown = self.answers([[self.begin, b"show functions\n"]])[0][-1]
        return Functions(read_tables(), [(line.decode(), "a page") for line in shown])

    def told(self, text: str) -> str:
        """Returns a line for a message: a function of a module has its name after it."""
        return self.functions.told(text) if text.startswith("XROM ") else text

    def answers(self, parts: list[list[bytes]]) -> list[list[list[bytes]]]:
        """Returns for each list of commands what they print: a list of lines for each command, without those of the first part, which
        is a deck."""
        status, found = answered(b"".join(b"".join(part) for part in parts), self.memory)
        if status > 1:
            raise Failure(ended(status, "before the keys were pressed"))
        answers = iter([answer for _, _, answer in found])
        return [[next(answers) for _ in items_of(lines_of(b"".join(part)))] for part in parts]

    def asked(self, rounds: list[Round], commands: Sequence[list[str]]) -> list[list[list[bytes]]]:
        """Returns for each round the answers to its commands, after those of its deck."""
        parts = [[one.begin, *(f"{command}\n".encode("latin-1") for command in own)] for one, own in zip(rounds, commands)]
        return [found[len(found) - len(own):] for found, own in zip(self.answers(parts), commands)]

    def press(self, rounds: list[Round]) -> None:
        """Presses the keys of rounds, each up to a key that is refused, and runs what they start."""
        self.begin = rounds[0].begin if rounds else b""
        left = rounds
        while left:
            commands = [self.pressing(one) for one in left]
            answers = self.asked(left, [[command for _, _, command in own] for own in commands])
            left = [one for one, own, found in zip(left, commands, answers) if self.learn(one, own, found)]

    def pressing(self, one: Round) -> list[Pressing]:
        """Returns the commands that press the keys: each with the number of its piece, and whether it presses a key."""
        found: list[Pressing] = []
        for at, piece in enumerate(one.pieces):
            keys = [piece]
            if at in one.letters:
                found += [(at, False, probe) for probe in PROBES]
                keys = typed_keys(piece, one.letters[at])
            found += [(at, is_key, command) for key in keys for is_key, command in ((True, f"key {key}"), (True, f"run {self.steps}"))]
        return found

    @staticmethod
    def learn(one: Round, commands: list[Pressing], answers: list[list[bytes]]) -> bool:
        """Takes the answers to the keys of a round. Returns whether a text is typed otherwise, so that the keys are pressed again."""
        one.runs, one.refusal = [], None
        state: list[str] = []
        for (at, is_key, command), answer in zip(commands, answers):
            if not is_key:
                state.append(answer[0].decode("latin-1") if answer else "")
                if len(state) < len(PROBES):
                    continue
                are_letters, state = takes_letters(*state), []
                if are_letters != one.letters[at]:
                    one.letters[at] = are_letters
                    return True
            elif command.startswith("run "):
                one.runs.append(Run(answer))
            elif answer:
                one.refusal = answer[0].decode()
                return False
        return False

    def trace(self, rounds: list[Round]) -> None:
        """Finds the steps of the runs that show a text, skip a line or lose a return address, and where each run ends."""
        commands = [[command for key, run in zip(one.keys(), one.runs)
                     for command in (f"key {key}", "show lines", "show ram 00d", f"trace {run.steps}")] for one in rounds]
        for one, answers in zip(rounds, self.asked(rounds, commands)):
            returns, before = Returns(), ""
            for at, (key, run) in enumerate(zip(one.keys(), one.runs)):
                shown = [line.decode("latin-1") for line in answers[4 * at + 1]]
                run.lines, run.curtain = Lines(shown, self.told, self.skipped), int(answers[4 * at + 2][0][12:15], 16)
                returns.press(before, key, run)
                self.follow(run, answers[4 * at + 3], returns)
                before = key

    def follow(self, run: Run, lines: list[bytes], returns: Returns) -> None:
        """Follows the lines of a run."""
        found = [TRACED.fullmatch(line.decode("latin-1")) for line in lines]
        run.last = run.lines.at(found[-1][2]) if found and found[-1] else None
        lost: dict[str, list[int]] = {}
        skipped: dict[str, list[int]] = {}
        passed = [(number, run.lines.at(line[2]), line[3]) for number, line in enumerate(found, 1) if line]
        for (number, place, text), after in zip(passed, [*passed[1:], (0, "", "")]):
            if place.startswith("P"):
                run.lines.texts[place] = text
            if SHOWS.fullmatch(run.lines.function(text)):
                run.shows.append(number)
            if place in run.lines.skipped:
                skipped.setdefault(place, []).append(number)
            if returns.step(text, after[1:]):
                lost.setdefault(place, []).append(number)
        run.notes = [(numbers[0], f"- {run.lines.name(place)}, was skipped{times(numbers)}; X stays") for place, numbers in skipped.items()]
        run.notes += [(numbers[0], f"- {run.lines.name(place)}, stores a seventh return address{times(numbers)}; the oldest is lost")
                      for place, numbers in lost.items()]

    def play(self, rounds: list[Round]) -> Iterator[tuple[list[str], int, int]]:
        """Plays rounds. Yields for each its output for the keys from `told` on, the status, and how many keys were pressed."""
        self.press(rounds)
        for one in rounds:
            bad = next((at for at in range(one.told, len(one.runs)) if one.runs[at].reason in ("Refused", "Limit")), None)
            if bad is not None:
                one.runs, one.refusal = one.runs[:bad + 1], None
        self.trace(rounds)
        commands, places = zip(*map(self.showing, rounds)) if rounds else ((), ())
        for one, own, ends, answers in zip(rounds, commands, places, self.asked(rounds, commands)):
            yield self.output(one, ends, [[line.decode("latin-1") for line in answer] for answer in answers])

    def showing(self, one: Round) -> tuple[list[str], list[int]]:
        """Returns the commands that make the steps of a round and show its texts, and for each run the number of commands up to it."""
        commands: list[str] = []
        places = []
        for at, (key, run) in enumerate(zip(one.keys(), one.runs)):
            commands.append(f"key {key}")
            made = 0
            for step in run.shows if at >= one.told else []:
                commands += [f"run {step - made}", "show display"]
                made = step
            commands += [f"run {run.steps - made}", *VIEWS, f"show ram {self.named(run):03x}"]
            places.append(len(commands))
        return commands + ["show flags"], places

    def output(self, one: Round, places: list[int], answers: list[list[str]]) -> tuple[list[str], int, int]:
        """Returns the output of a round, its status, and how many keys were pressed."""
        lines: list[str] = []
        status, first, keys = 0, 0, one.keys()
        for at, (run, end) in enumerate(zip(one.runs, places)):
            if at >= one.told:
                texts = [answer[0] for answer in answers[first + 2:end - len(VIEWS) - 2:2]]
                last = at == len(one.runs) - 1 and not one.refusal
                found, status = self.tell(run, texts, answers[end - len(VIEWS) - 1:end], last)
                lines += found
                if status and run.reason == "Idle":
                    return lines, status, at + 1
            first = end
        pressed = len(one.runs)
        if one.refusal:
            why = why_refused(one.refusal, keys[:pressed + 1], answers[-1][0].split())
            lines.append(f"= key {pressed - one.told + 1}, {keys[pressed]}, is refused: {one.refusal}{why}")
            status = 1
        return lines, status, pressed

    @staticmethod
    def named(run: Run) -> int:
        """Returns the address of the register that the last line names; that of X if it names none."""
        operand = OPERAND.fullmatch(run.lines.texts.get(run.last or "", ""))
        if operand is None:
            return STACK.index("X")
        return STACK.index(operand[1]) if operand[1] in STACK else min(run.curtain + int(operand[1]), 0x3FF)

    def tell(self, run: Run, texts: list[str], answers: list[list[str]], is_last: bool) -> tuple[list[str], int]:
        """Returns the output for a run, made from what the bench shows after it, and its status."""
        display, at, *registers = (answer[0] for answer in answers)
        position = at.split()[1] if not at.startswith("Micro") else None
        shown = list(zip(run.shows, texts))
        if run.reason == "Refused":
            place = run.lines.name(position) if position is not None else f"the function at {answers[1][0].split()[1]}"
            return [*said(shown, run), f"= refused in {place}: {run.refusal}"], 1
        if run.reason != "Idle":
            place = f", and {run.lines.name(position)}, is next" if position is not None else ""
            reason = f"limit: {run.steps} steps" if run.reason == "Limit" else f"{run.reason}: {run.steps} steps"
            return [*said(shown, run), f"= {reason}{place}"], 1
        if not run.steps and display in FAULTS:
            return [f"= {display} by the keys"], 1
        if not run.steps or run.last is None:
            return said(shown, run) + ([f"= shows {display}"] if is_last else []), 0
        text = run.lines.function(run.lines.texts.get(run.last, "?"))
        if text == "PROMPT":
            return [*said(shown, run), f"= asks in {run.lines.name(run.last)}"], 0
        if STOPS.fullmatch(text):
            return [*said(shown, run), f"= answers {display} in {run.lines.name(run.last)}"], 0
        shown = shown[:-1] if run.shows[-1:] == [run.steps] else shown
        return [*said(shown, run), f"= {display} in {run.lines.name(run.last)} ({self.registers(run, text, registers)})"], 1

    def registers(self, run: Run, text: str, registers: list[str]) -> str:
        """Returns X, Y and the register that the last line names, for a message."""
        values = [f"{name} {text_of(register[4:])}" for name, register in zip("XY", registers)]
        operand = OPERAND.fullmatch(text)
        if operand and operand[1] not in "XY":
            name = operand[1] if operand[1] in STACK else f"R{operand[1]}"
            size = MAIN_START + int(self.memory) - run.curtain
            is_there = operand[1] in STACK or int(operand[1]) < size
            values.append(f"{name} {text_of(registers[2][4:])}" if is_there else f"no {name} with size {size}")
        return ", ".join(values)


def why_refused(refusal: str, keys: list[str], flags: list[str]) -> str:
    """Returns why the last of some keys is refused as KeyNotHeld, by the flags that are set; an empty text if they are not the reason."""
    if KEY_NOT_HELD not in refusal.encode():
        return ""
    if keys[-1] == "USER":
        return " (the bench has no USER mode)"
    is_plain = keys[-1] == "R/S" or keys[-2:] in (["SHIFT", "CHS"], ["SHIFT", "EEX"])
    return " (ALPHA is on: press ALPHA first)" if is_plain and ALPHA_ON in flags else ""


def times(numbers: list[int]) -> str:
    """Returns how often a line was executed, for a message."""
    return f" {len(numbers)} times" if numbers[1:] else ""


def said(shown: list[tuple[int, str]], run: Run) -> list[str]:
    """Returns the lines for the texts and notes of a run, in the order of their steps."""
    lines = [*((step, f"> {text}") for step, text in shown), *run.notes]
    return [line for _, line in sorted(lines, key=lambda one: one[0])]
