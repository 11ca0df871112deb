"""Reads a program and the claims about it: a listing with claims in its comments, or bytes with claims in a text beside them."""
from __future__ import annotations

from dataclasses import replace
from typing import NamedTuple

from .claims import Wrong
from .codes import NotProved
from .decks import Failure, block, bytes_of, ended, hexadecimal, refused, run, shown
from .functions import Functions
from .lineclaims import LISTED, OPPOSITE, Condition, LineContract, LoopContract, contract_before, keyword_of, plain
from .linepoints import Call, Point
from .linesteps import LAST
from .linetheorems import Program
from .lineterms import LABEL, LOCAL, ProgramLine
from .listings import Listing
from .memory import MAIN_START, Memory
from .spellings import read_tables

TOP = MAIN_START + 320
# Why a program that leads back to itself is not supported.
AGAIN = {"XEQ": "a subroutine that calls itself is not supported",
         "GTO": "GTO with a name does not lead back to the program itself: put a local label there, with claims about a loop, see Loops of "
                "programs in docs/PROVE-YOUR-MODULE.md"}
# The lines after the program: RTN and .END.
ADDED = 2
# The first bytes of lines of two and of three bytes, whose last byte can be 00.
TWO_BYTES, THREE_BYTES = (*range(0x90, 0xC0), 0xCE, 0xCF), range(0xC0, 0xF0)


class Source(NamedTuple):
    """A file with a program: its lines, its bytes, the path of the claims, and for each program line the number of its line in the file."""
    path: str
    lines: list[ProgramLine]
    data: bytes
    claims: str
    texts: list[str]

    def place(self, number: int) -> str:
        """Returns the place of a program line."""
        return f"{self.path}:{number}" if self.path == self.claims else f"{self.path}: line {number}"


def texts_in(path: str) -> list[str]:
    """Returns the lines of a text."""
    try:
        return bytes_of(path).decode("utf-8-sig").splitlines()
    except UnicodeDecodeError as error:
        raise Failure(f"{path}: byte {error.object[error.start]:02X} is not valid UTF-8: save the file as UTF-8") from error


def loading(path: str, texts: list[str]) -> tuple[bytes, list[int]]:
    """Returns the block that loads the program of a file, and the numbers of its lines in the file."""
    if path.lower().endswith(".raw"):
        return block(b"load", hexadecimal(bytes_of(path))), []
    listing = Listing(texts, functions=Functions(read_tables()))
    if listing.bad:
        number, line, why = listing.bad[0]
        raise Failure(f"{path}:{number}: `{shown(line)}`: not a program line{f': {why}' if why else ''}")
    found = [(number, text) for number, text in enumerate(listing.texts, 1) if text and not text.startswith("#")]
    if not found:
        raise Failure(f"{path}: found no program in it, expected a listing with claims before a label")
    return block(b"program", [text.encode() for _, text in found]), [number for number, _ in found]


def source_of(path: str, claims: str | None) -> Source:
    """Reads a program. The bench lists its lines, and its bytes are those in the memory of the bench."""
    texts = texts_in(claims or path)
    deck, numbers = loading(path, texts)
    deck = b"size 0\n" + deck
    # Another program follows, because the bench replaces the last END of memory by .END.
    status, output = run(deck + block(b"program", [b"RTN"]) + b"show lines\n" + Memory.command(TOP) + b"\n")
    if status:
        _, found = refused(deck)
        why = found[0].refusal if found else ended(status, "when it was asked for the lines of the program")
        raise Failure(f"{path}: the bench refuses the program: {why}")
    rows = output.decode("latin-1").splitlines()
    count = next(at for at, row in enumerate(rows) if row.endswith(" .END.")) + 1
    places, listed = [int(row[:4]) for row in rows[:count]], [row[5:] for row in rows[:count]]
    data = Memory([row[4:] for row in rows[count:]], TOP).program_bytes()
    # An END that the bench has added after a listing is no line of it.
    own = min(count - ADDED, len(numbers) or count)
    lines = [ProgramLine(listed[at], numbers[at] if numbers else at + 1, without_nulls(data[places[at]:places[at + 1]]), places[at])
             for at in range(own)]
    return Source(path, lines, data[:places[count - ADDED]], claims or path, texts)


def without_nulls(data: bytes) -> bytes:
    """Returns the bytes of a line without the nulls after them."""
    least = 2 if data[:1] and data[0] in TWO_BYTES else 3 if data[:1] and data[0] in THREE_BYTES else 1
    return data[:least] + data[least:].rstrip(b"\0")


def named(source: Source) -> list[tuple[int, str]]:
    """Returns the lines of the claims that name labels, counted from 0, with the text of the line as the bench prints it."""
    if source.path == source.claims:
        return [(line.number - 1, line.text) for line in source.lines if LABEL.fullmatch(line.text) or LOCAL.fullmatch(line.text)]
    return [(at, text.strip()) for at, text in enumerate(source.texts) if text.strip() and not LISTED.match(text)]


def contracts_in(source: Source) -> list[tuple[int, str, LineContract]]:
    """Returns the labels with claims: the place of the label in the lines of the claims, its text, and its claims."""
    labels = named(source)
    if source.path != source.claims:
        known = [line.text for line in source.lines]
        for at, text in labels:
            if text not in known:
                raise Wrong(at + 1, 1, f"found `{text}`, expected a comment, or a label of {source.path} as the bench lists it, for "
                            f"example `{next((one for one in known if LABEL.fullmatch(one)), 'LBL')}`")
    check_places(source, {at for at, _ in labels})
    found = []
    for at, text in labels:
        contract = contract_before(source.texts, at)
        if contract:
            found.append((at, text, contract))
    return found


def check_places(source: Source, labels: set[int]) -> None:
    """Checks that all claims are directly before a label."""
    texts = source.texts
    for at, text in enumerate(texts):
        sign = LISTED.match(text)
        keyword = keyword_of(text[sign.end():], at + 1, sign.end() + 1) if sign else None
        after = next((more for more in range(at, len(texts)) if not LISTED.match(texts[more])), len(texts))
        if keyword and sign and after not in labels:
            raise Wrong(at + 1, sign.end() + 1, "these claims belong to no label, expected a line with a label directly after the comments")


class Finder:
    """The programs of a source. Each is built after those that it calls."""

    def __init__(self, source: Source) -> None:
        """Reads the claims."""
        self.lines = source.lines
        self.claims: dict[int, tuple[int, str, LineContract]] = {}
        self.loops: dict[int, LoopContract] = {}
        for at, text, contract in contracts_in(source):
            first = next(place for place, line in enumerate(source.lines)
                         if line.text == text and place not in self.claims and (source.path != source.claims or line.number == at + 1))
            if contract.has_own and contract.loop.decreases:
                raise Wrong(contract.loop.line, 1, f"found claims about a loop and others before `{text}`, expected the label of the loop "
                            "on a line of its own, for example LBL 01 after it")
            if contract.has_own:
                self.claims[first] = (at + 1, text, contract)
            elif LABEL.fullmatch(text):
                raise Wrong(contract.line, 1, f"found claims about a loop before `{text}`, expected them before a local label, to which "
                            "GTO leads back, for example LBL 01")
            else:
                self.loops[first] = contract.loop
        self.known: dict[int, Program] = {}
        self.running: list[int] = []

    def program(self, first: int) -> Program:
        """Returns the program with claims at a place."""
        if first not in self.known:
            self.running.append(first)
            text, contract = self.claims[first][1:]
            is_start = not first or self.lines[first - 1].text == "END"
            name = text[5:-1] if LABEL.fullmatch(text) else self.local_name(first)
            end = next((place for place in range(first, len(self.lines)) if self.lines[place].text == "END"), len(self.lines))
            loops = {place - first: loop for place, loop in self.loops.items() if first < place < end}
            self.known[first] = Program(name, self.lines[first:], contract, is_start, lambda at: self.called(first, first + at), loops)
            self.running.pop()
        return self.known[first]

    def local_name(self, first: int) -> str:
        """Returns the name of a local label, with the number of an earlier one with the same text."""
        text = self.lines[first].text
        count = sum(1 for line in self.lines[:first] if line.text == text)
        return f"{text.replace(' ', '_')}{f'_{count + 1}' if count else ''}"

    def called(self, first: int, at: int) -> Call:
        """Returns the subroutine that the XEQ at a place calls, in the program that begins at another place."""
        line = self.lines[at]
        label = f"LBL {line.text[4:]}"
        places = [place for place, one in enumerate(self.lines) if one.text == label]
        if LOCAL.fullmatch(label):
            end = next((place for place in range(at, len(self.lines)) if self.lines[place].text == "END"), len(self.lines))
            found = next((place for place in places if at < place < end), next((place for place in places if first < place < end), None))
        else:
            found = places[-1] if places else None
        if found is None:
            place = "program" if LOCAL.fullmatch(label) else "file"
            raise NotProved(line.number, f"`{line.text}`: found no {label} in the {place}: put the lines of the subroutine there")
        if found not in self.claims:
            raise NotProved(line.number, f"`{line.text}`: {label} has no claims: write comments before it that say what it requires and "
                                         "leaves")
        if found in self.running:
            raise NotProved(line.number, f"`{line.text}`: {AGAIN[line.text[:3]]}")
        return Call(self.program(found), found - first if LOCAL.fullmatch(label) else None)


def programs_in(source: Source) -> list[tuple[int, Program]]:
    """Returns the programs with claims, with the number of the line of each label. Each is after those that it calls."""
    finder = Finder(source)
    for first in finder.claims:
        finder.program(first)
    if not finder.known:
        raise Failure(f"{source.claims}: found no claims, expected a comment before a label, for example `; ensures X = old Y`")
    reached = {first + place for first, program in finder.known.items() for place in program.walk.loops}
    for place, loop in finder.loops.items():
        if place not in reached:
            raise Wrong(loop.line, 1, f"found claims about a loop before `{source.lines[place].text}`, which no program with claims "
                        "reaches: put claims before the label of its program, for example `; ensures X = old Y`")
    return [(finder.claims[first][0], program) for first, program in finder.known.items()]


class Mismatch(NamedTuple):
    """A claim that does not follow from what the lines compute: its line, its text, and why."""
    line: int
    claim: str
    why: str


def mismatches(program: Program) -> list[Mismatch]:
    """Returns the claims that do not follow from the values that the lines compute, with the state that is reached."""
    found: dict[str, Mismatch] = {}
    for point in program.walk.points():
        if point.kind not in LAST:
            continue
        for one, value, condition in program.equations:
            reached = point.state.register(one.register)
            is_whole = None not in (program.walk.nat(reached), program.walk.nat(value))
            if reached.plain() != value and not is_whole and not excluded(program, point, condition):
                found.setdefault(one.text, Mismatch(one.line, one.text, f"at {program.lines[point.at].text}, line {point.at + 1} from the "
                                                    f"label on, {one.register} contains {plain(reached.text())}{path_of(point)}"))
    most = program.contract.most
    if most and (program.most.parts or most[0] < program.most.constant):
        count = program.most.shown()
        found[most[1]] = Mismatch(most[2], most[1], f"the program takes up to {count} {'line' if count == '1' else 'lines'}")
    return list(found.values())


def excluded(program: Program, point: Point, condition: Condition | None) -> bool:
    """Returns whether the condition of a claim is false on the path to a point."""
    if condition is None or program.is_never(point, condition):
        return condition is not None
    return any(fact.condition == replace(condition, is_true=not condition.is_true) for fact in point.facts)


def path_of(point: Point) -> str:
    """Returns the tests on the path to a point, for a message."""
    tests = [compared(fact.condition) for fact in point.facts if fact.condition]
    return f", if {' and '.join(tests)}" if tests else ""


def compared(condition: Condition) -> str:
    """Returns a condition as a claim has it."""
    relation = condition.relation if condition.is_true else OPPOSITE[condition.relation]
    return f"{plain(condition.left.text())} {relation} {plain(condition.right.text())}"
