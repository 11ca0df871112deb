"""Tests of programs for tools/play --script: a case in each row, in the form of the cases of tools/module. A case starts a program, presses
the keys that it asks for, and says what is wanted afterwards."""
from __future__ import annotations

import re
from typing import NamedTuple

from .cases import ARROW, WORDS, text_in, with_quote
from .decks import MAIN_START, Failure, answered, items_of, lines_of, shown, words_of
from .playing import FAULTS, Player, Round
from .settings import CPU, DATA_NAME, FLAG_NAME, SETTING, STACK, Setting, Wrong, setting
from .stubs import Sizes, memory_of, stub_of
from .typed import NoKeys, Text, pieces_of, why_no_key
from .values import text_of

# Settings of programs alone: keys after the call; the texts that are shown, and the error that is wanted.
INPUT, SHOWS, ERROR = "input", "shows", "error"
BETWEEN_TEXTS = "|"
TARGET = re.compile(r'"([^"]*)"|R/S')
FORM = 'expected "NAME" BEFORE.. -> AFTER.., for example: "QUAD" input="1 R/S -5 R/S 6 R/S" -> display="X2=2.0000"'
PAGES = "FEDCBA98"
PLUGGING = (b"words", b"image", b"asm")


class Case(NamedTuple):
    """A case: its file, line number and title, the keys before the call, those from the call on, and its settings. `texts` are the shown
    texts that are wanted, and `error` the error, or None."""
    path: str
    number: int
    title: str
    target: str
    keys: list[str]
    called: list[str]
    before: list[Setting]
    after: list[Setting]
    texts: list[str] | None
    error: str | None

    def name(self) -> str:
        """Returns the name of the case."""
        return f"{self.path}:{self.number} {self.target}{f' {self.title}' if self.title else ''}"


def unquoted(value: str) -> str:
    """Returns a value without its quotes."""
    return value[1:-1] if value[:1] in ("'", '"') else value


def keys_in(name: str, value: str) -> list[str]:
    """Returns the keys of a setting, with texts among them."""
    from .keyboard import KEYS
    try:
        pieces = pieces_of(unquoted(value))
    except NoKeys as why:
        raise Wrong(f"{name}: {why}") from why
    unknown = [piece for piece in pieces if not isinstance(piece, Text) and piece not in KEYS]
    if unknown:
        raise Wrong(f"{name}: {why_no_key(unknown[0])}")
    return pieces


def error_of(value: str) -> str:
    """Returns the message of an error."""
    if unquoted(value) not in FAULTS:
        raise Wrong(f"error: found `{value}`, expected one of {', '.join(FAULTS)}")
    return unquoted(value)


def setting_of(name: str, sign: str, value: str, is_before: bool) -> Setting:
    """Returns a setting of a register, a flag, ALPHA, the display, the steps or a refusal."""
    if name in CPU and name not in STACK:
        raise Wrong(f"{name}: a register of the processor, which programs do not use: expected a register of the stack, a data register "
                    "like R05, a flag like F22, or ALPHA")
    return setting(name, sign, value, is_before)


class Words:
    """The settings in the words of a row, before or after the arrow."""

    def __init__(self, words: list[str], is_before: bool) -> None:
        """Reads settings."""
        self.settings: list[Setting] = []
        self.keys: list[str] = []
        self.input: list[str] = []
        self.texts: list[str] | None = None
        self.error: str | None = None
        before: dict[str, str] = {}
        for word in words:
            parts = SETTING.fullmatch(word)
            if not parts:
                raise Wrong(f"found `{word}`, expected a setting like X=5 or {INPUT}=\"1 R/S\"")
            name, sign, value = parts.groups()
            if name in before:
                raise Wrong(f"found two settings of {name}, `{before[name]}` and `{word}`, expected one")
            before[name] = word
            if name in (("keys", INPUT) if is_before else (SHOWS, ERROR)) and sign == "=":
                self.read(name, value)
            elif name in (INPUT, SHOWS, ERROR):
                raise Wrong(f"found `{word}` {'before' if is_before else 'after'} ->, expected {name}=\"..\" "
                            f"{'before' if name == INPUT else 'after'} it")
            else:
                self.settings.append(setting_of(name, sign, value, is_before))


    def read(self, name: str, value: str) -> None:
        """Reads a setting of programs alone."""
        if name == "keys":
            self.keys = keys_in(name, value)
        elif name == INPUT:
            self.input = keys_in(name, value)
        elif name == SHOWS:
            self.texts = unquoted(value).split(BETWEEN_TEXTS) if unquoted(value) else []
        else:
            self.error = error_of(value)


def case_of(path: str, number: int, words: list[str], title: str) -> Case:
    """Returns the case of a row."""
    target = TARGET.fullmatch(words[0])
    if target is None:
        raise Wrong(f"found `{words[0]}`, but a row begins with a name in quotes or with R/S; {FORM}")
    if ARROW not in words:
        raise Wrong(f"no -> is between what is set before the call and what is expected after it; {FORM}")
    at = words.index(ARROW)
    before, after = Words(words[1:at], True), Words(words[at + 1:], False)
    start = ["XEQ", Text(target[1])] if target[1] is not None else ["R/S"]
    return Case(path, number, title, words[0], before.keys, [*start, *before.input], before.settings, after.settings, after.texts,
                after.error)


def cases_in(path: str) -> list[Case]:
    """Returns the cases of a file. Empty rows and rows that begin with # are skipped."""
    cases = []
    for number, row in enumerate(text_in(path).splitlines(), 1):
        words = WORDS.findall(row)
        title = words.pop()[1:].strip() if words and words[-1].startswith("#") else ""
        if not words:
            continue
        try:
            cases.append(case_of(path, number, words, title))
        except Wrong as why:
            raise Failure(f"{path}:{number}: `{shown(row.strip())}`: {with_quote(why, row)}") from why
    if not cases:
        raise Failure(f"{path}: found no cases: {FORM}")
    return cases


# The name of a case, and the reasons why it failed.
CaseResult = tuple[str, list[str]]


class Tester:
    """Runs cases after the deck that loads the programs."""

    def __init__(self, front: bytes, steps: int, memory: str, skipped: dict[int, str]) -> None:
        """Finds a free page, and the sizes of memory after the deck."""
        self.front, self.steps, self.memory, self.skipped = front, steps, memory, skipped
        lines = lines_of(front)
        used = {words_of(lines[first])[1:2][0].upper() for first, _ in items_of(lines)
                if words_of(lines[first])[0] in PLUGGING and words_of(lines[first])[1:]}
        self.page = next((page for page in PAGES if page.encode() not in used), None)
        curtain = answered(front + b"show ram 00d\n", memory)[1][-1][2][0]
        self.sizes = Sizes(int(memory), MAIN_START + int(memory) - int(curtain[12:15], 16))

    def begin(self, case: Case) -> bytes:
        """Returns the deck that loads the programs and sets the registers of a case."""
        for one in case.before:
            data = DATA_NAME.fullmatch(one.name)
            if data and int(data[1]) >= self.sizes.data:
                raise Failure(f"{case.name()}: there is no {one.name} with size {self.sizes.data}: give a greater --size, or in a deck a "
                              "greater `size N`")
        memory = memory_of(case.before, self.sizes)
        if not memory:
            return b"reset\n" + self.front
        if self.page is None:
            raise Failure(f"{case.name()}: no page is free for the words that set registers: pages 8 to F are used: unplug one of them in "
                          "the deck")
        stub = stub_of(memory, {}, None)
        return (b"reset\n" + self.front + f"words {self.page}\n{stub.text}end\ncall {self.page}000\nstep {stub.steps}\n"
                f"unplug {self.page}\n".encode())

    def results(self, cases: list[Case]) -> list[CaseResult]:
        """Runs cases. Returns for each its name and the reasons why it failed; none if it passed."""
        views = [self.views(case) for case in cases]
        rounds = [Round(self.begin(case), [*case.keys, *case.called], len(case.keys)) for case in cases]
        player = Player(self.steps, self.memory, self.skipped)
        played = list(player.play(rounds))
        for one, (_, _, pressed) in zip(rounds, played):
            one.runs = one.runs[:pressed]
        commands = [[*(command for key, run in zip(one.keys(), one.runs) for command in (f"key {key}", f"run {run.steps}")), *own]
                    for one, own in zip(rounds, views)]
        answers = player.asked(rounds, commands)
        found = [[line[0].decode("latin-1") for line in own[len(own) - len(asked):]] for own, asked in zip(answers, views)]
        return [(case.name(), self.faults(case, one, lines, dict(zip(asked, shown_))))
                for case, one, (lines, _, _), asked, shown_ in zip(cases, rounds, played, views, found)]

    def views(self, case: Case) -> list[str]:
        """Returns the commands that show the wanted values."""
        for one in case.after:
            data = DATA_NAME.fullmatch(one.name)
            if data and int(data[1]) >= self.sizes.data:
                raise Failure(f"{case.name()}: there is no {one.name} with size {self.sizes.data}: give a greater --size, or in a deck a "
                              "greater `size N`")
        return list(dict.fromkeys(filter(None, (self.view(one.name) for one in case.after))))

    def view(self, name: str) -> str:
        """Returns the command that shows a value; an empty text if the runs have it."""
        data = DATA_NAME.fullmatch(name)
        if data:
            return f"show ram {self.sizes.address(int(data[1])):03x}"
        if name in STACK or re.fullmatch("[0-3][0-9A-F]{2}", name):
            return f"show ram {STACK.get(name, int(name, 16) if name not in STACK else 0):03x}"
        return "show flags" if FLAG_NAME.fullmatch(name) else {"ALPHA": "show alpha", "display": "show display"}.get(name, "")

    def value(self, name: str, run: Round, values: dict[str, str]) -> str:
        """Returns a value that was found, as the bench prints it."""
        text = values.get(self.view(name), "")
        if name == "steps":
            return str(sum(one.steps for one in run.runs[run.told:]))
        if name == "refusal":
            return refusal_of(run)[2:]
        if FLAG_NAME.fullmatch(name):
            return str(int(name[1:] in text.split()))
        return text[4:] if self.view(name).startswith("show ram") else text

    def faults(self, case: Case, one: Round, lines: list[str], values: dict[str, str]) -> list[str]:
        """Returns the reasons why a case failed, and the last line of the output if there are some."""
        found, last = [], lines[-1] if lines else ""
        texts = [line[2:] for line in lines if line.startswith("> ")]
        for want in case.after:
            value = self.value(want.name, one, values)
            is_good = (int(value) <= int(want.value) if want.sign == "<=" else
                       want.value in (value, *value.split()) if want.name == "refusal" else value == want.value)
            if not is_good:
                found.append(f"{want.name}: wanted {'at most ' if want.sign == '<=' else ''}{printed(want.name, want.value)}, "
                             f"found {printed(want.name, value)}")
        if case.texts is not None and texts != case.texts:
            found.append(f'shows: wanted "{BETWEEN_TEXTS.join(case.texts)}", found "{BETWEEN_TEXTS.join(texts)}"')
        error = next((fault for fault in FAULTS if re.match(rf"= {fault} (?:in|by) ", last)), None)
        if error != case.error:
            found.append(f"error: wanted {case.error or 'none'}, found {error or 'none'}")
        ended = refusal_of(one) or any(run.reason != "Idle" for run in one.runs)
        if ended and not any(want.name == "refusal" for want in case.after):
            found.append("the program was not finished")
        return [*found, last] if found else []


def refusal_of(one: Round) -> str:
    """Returns the refusal of a key or of a line, or an empty text."""
    return one.refusal or next((run.refusal for run in one.runs if run.refusal), "") or ""


def printed(name: str, value: str) -> str:
    """Returns a value for a message."""
    if name in STACK or DATA_NAME.fullmatch(name) or re.fullmatch("[0-3][0-9A-F]{2}", name):
        text = text_of(value)
        return value if text.startswith("=") else text
    return f'"{value}"' if name in ("ALPHA", "display", "refusal") else value


def tap(results: list[CaseResult]) -> str:
    """Returns results in the Test Anything Protocol."""
    lines = [f"1..{len(results)}"]
    for number, (name, faults) in enumerate(results, 1):
        lines.append(f"{'not ok' if faults else 'ok'} {number} - {name}")
        lines += [f"# {line}" for line in faults]
    return "\n".join(lines) + "\n"
