"""Links the pages and banks of a project: their labels are one name space. The bench assembles each source once.

The tool counts the words of each line to find the labels, and compares every long jump to a label with the words of the bench."""
from __future__ import annotations

import os
import re
from bisect import bisect_right
from collections.abc import Iterator
from typing import NamedTuple

from .decks import Failure, block, run, shown, words_of
from .projects import Page, Project, Reader, nearest, place_of
from .sources import (BLANKS, NAME, OF_THE_END, Assembled, Faulty, Line, Source, Whole, checksum_of, constant, directive_of, source_in,
                      text_in, without_comments)

TARGET = re.compile(rb":(?:(" + NAME + rb")\.)?(" + NAME + rb")\Z")
LONG = re.compile(rb"\?N?C[ \t]+(?:XQ|GO)[ \t]")
# The short jumps, each with the long one in its place.
SHORT = {"JNC": "?NC GO", "JC": "?C GO"}
QUOTED = re.compile(rb'"([^"]*)"')
TWO_WORDS = (b"LDI", b"ENTRY", b"FOCAL")
# The first words of table entries, and their bits besides the offset.
ENTRIES = {"ENTRY": 0x000, "FOCAL": 0x200}
# The instructions with a number, which may be an equate.
NUMBERED = ("READ", "WRIT", "R=", "?R=", "RCR", "LD@R", "SETF", "CLRF", "?FSET", "LDI", "CON")
# Those with a place or a bit, which is 0 to 13, and those with a word.
OF_PLACES, OF_WORDS = ("R=", "?R=", "RCR", "SETF", "CLRF", "?FSET"), ("LDI", "CON")
IMAGE_LINES = 256


def fits(name: str, value: str) -> bool:
    """Returns whether an instruction takes the value of an equate: a decimal number has one or two digits, a word three, an address four.
    Returns True for an instruction that takes no equate."""
    if LONG.match(name.encode() + b" "):
        return len(value) == 4
    if name in OF_WORDS:
        return len(value) == 3 and int(value, 16) < 0x400
    if name not in NUMBERED:
        return True
    return len(value) < 3 and int(value) <= (13 if name in OF_PLACES else 15) and (name, value) != ("READ", "0")


def length_of(line: Line) -> int:
    """Returns the number of words of a source line without an error."""
    words = words_of(line.code)
    if words[:1] == [b"NAME"]:
        found = QUOTED.search(line.code)
        return len(found[1]) if found else 0
    return 2 if words[:1] and (words[0] in TWO_WORDS or LONG.match(line.code)) else len(words[:1])


class Text(Whole):
    """The lines of a source, and of the description of its page's end, whose places the tool counts."""

    def describe(self, path: str, texts: list[bytes]) -> None:
        """Adds the lines of a description."""
        self.end, self.fill = sum(length_of(Line(text)) for text in without_comments(self.lines)), 0
        for number, (text, line) in enumerate(zip(texts, map(Line, without_comments(texts))), 1):
            if directive_of(line) in OF_THE_END:
                self.carry_out(directive_of(line), line.code, (path, number), text)
            else:
                self.add(text, (path, number), text)
                self.end += length_of(line)


class Unit(Assembled):
    """A bank of a page: its lines with their places, its labels, and its words when the bench has assembled it. It can be used as an
    assembled source of tools/list and tools/lint."""

    def __init__(self, bank: Page) -> None:
        """Reads the lines of a bank, and counts their words."""
        self.bank, self.name, self.page, self.number, self.faults = bank, bank.name, bank.at, bank.bank, []
        self.whole = text_of_bank(bank)
        self.texts = list(self.whole.lines)
        # The lines that fill the page are thousands of the same line.
        alike, fills = {text: Line(text) for text in {self.texts[at] for at in self.whole.fills}}, self.whole.fills
        self.lines = [alike[text] if at in fills else Line(text) for at, text in enumerate(without_comments(self.texts))]
        self.places, self.labels, place = [], {}, 0
        for at, line in enumerate(self.lines):
            self.places.append(place)
            if line.label:
                self.labels.setdefault(line.label, place)
            place += 1 if at in fills else length_of(line)
        self.places.append(place)
        self.size, self.words = place, []
        self.foreign: list[str] = []
        # The table entries whose labels are in other banks of the page, by their lines.
        self.entered: dict[int, Label] = {}
        # The lines for the bench, in which addresses replace labels of other banks.
        self.linked = list(self.texts)

    def uses_of(self, label: str) -> list[int]:
        """Returns the lines that refer to a label; -1 for each line of another bank."""
        return [*super().uses_of(label), *(-1 for name in self.foreign if name == label)]

    def line_at(self, place: int) -> int:
        """Returns the line whose words include a place of the page, counted from 0; -1 if there is none."""
        return bisect_right(self.places, place) - 1 if place < self.size else -1

    def origin(self, place: int) -> str:
        """Returns the file and number of the line at a place of the page; an empty text if there is none."""
        at = self.line_at(place)
        if at < 0:
            return ""
        path, number = self.whole.origins[at]
        return f"{os.path.basename(path)}:{number}"

    def block(self) -> bytes:
        """Returns the block that plugs this bank."""
        return block(b"asm " + self.bank.opener(), self.linked)

    def wrong_jump(self) -> str | None:
        """Returns the first label that a long jump of the bench's words does not reach."""
        for at, line in enumerate(self.lines):
            if line.reference in self.labels and LONG.match(line.code):
                low, high = self.words_of_line(at)
                if (low >> 2 | high >> 2 << 8) != (int(self.page, 16) << 12) + self.labels[line.reference]:
                    return line.reference
        return None


def text_of_bank(bank: Page) -> Whole:
    """Returns the lines of a bank: of its source, or those made of its keystroke programs."""
    if bank.source:
        return Text(bank.source, source_in(bank.source), bank.end)
    from .modules import Module, Refusals, lines_of_texts, programs_of
    lines = []
    for path in bank.programs:
        texts = [(number, text.decode("latin-1").strip()) for number, text in enumerate(text_in(path).split(b"\n"), 1)]
        texts = [(number, text) for number, text in texts if text and not text.startswith("#")]
        refusals: Refusals = []
        found = lines_of_texts([text for _, text in texts], refusals)
        if found is None:
            raise Failure(f"{path}:{why_not_read(texts, refusals)}")
        lines += found if not found or found[-1][0] == "END" else [*found, ("END", bytes.fromhex("C0000D"))]
    source = "\n".join(Module(bank.module or 0, programs_of(lines)).source())
    return Text(bank.programs[0], source.encode() + b"\n", bank.end)


def why_not_read(texts: list[tuple[int, str]], refusals: list[tuple[int, str]]) -> str:
    """Returns why the bench does not read the lines of a listing, with the number of the first wrong one; or the refusal of the lines
    together, if none of them is wrong alone."""
    from .listings import readable
    good = readable([text for _, text in texts])
    found = next(((number, text) for number, text in texts if text not in good or text == ".END."), None)
    if found is None:
        at, refusal = refusals[0]
        return (f"{texts[at][0]}: `{shown(texts[at][1])}`: the lines from here on are refused together, but none alone: {refusal}: "
                f"please report it")
    number, text = found
    why = "not the last line: separate programs with END" if text in good else \
        "not a program line: write it without a number, in the bench's spelling: tools/import converts other spellings"
    return f"{number}: `{shown(text)}`: {why}"


class Label(NamedTuple):
    """A label: its bank, its name and its address."""
    unit: Unit
    name: str
    address: int


def why_not_joined(first: str, label: Label) -> str:
    """Returns why the instruction `first` cannot refer to a label of another bank."""
    if first in SHORT:
        return f"{first} reaches only labels of its own source, and {label.name} is in {label.unit.name}: use {SHORT[first]}"
    if first in ENTRIES:
        return (f"{first} takes only labels of its own page, and {label.name} is in {label.unit.name} at page {label.unit.page}: name a "
                f"label of this page from which ?NC GO :{label.name} leads there")
    return f"{first} takes no label: expected a number, or the name of an equate"


class Linked:
    """The pages and banks of a project, with the labels of all of them."""

    def __init__(self, project: Project) -> None:
        """Links the pages. Raises Faulty with all errors if there are some."""
        self.project = project
        self.units = [Unit(page) for page in project.pages]
        self.labels: dict[str, list[Label]] = {}
        for unit in self.units:
            for name, place in unit.labels.items():
                self.labels.setdefault(name, []).append(Label(unit, name, (int(unit.page, 16) << 12) + place))
        # The lines of each bank with a reference that is an error.
        self.unlinked: dict[str, set[int]] = {unit.name: set() for unit in self.units}
        faults = [*self.equates_twice(), *(fault for unit in self.units for fault in unit.whole.faults + self.link(unit))]
        if faults:
            raise Faulty("\n".join([*self.faults_of_lines(), *faults]))

    # Names.

    def equates_twice(self) -> list[str]:
        """Returns an error for each equate that is also a label."""
        names = [name for name in self.project.equates if name in self.labels and name not in self.project.included]
        reader = Reader(self.project.path) if names else None
        return [str(reader.fail("equates", name, f"{self.where(self.labels[name][0])} is a label of this name: rename one of them"))
                for name in names if reader]

    @staticmethod
    def where(label: Label) -> str:
        """Returns the file and line of a label."""
        return label.unit.whole.place(label.unit.line_of(label.name))

    def full(self, label: Label) -> str:
        """Returns the name of a label, with its page if the name is used twice."""
        return label.name if len(self.labels[label.name]) == 1 else f"{label.unit.name}.{label.name}"

    def called(self, page: str | None, name: str) -> Label | str:
        """Returns the label that a call names, or why there is none. A call begins in bank 1, so a label of bank 1 comes first."""
        first = [label for label in self.labels.get(name, []) if label.unit.bank.bank == 1]
        return first[0] if page is None and len(first) == 1 else self.find(page, name)

    def find(self, page: str | None, name: str, own: Unit | None = None) -> Label | str:
        """Returns the label with a name, or why there is none. A name without a page is first a label of the own source."""
        found = self.labels.get(name, [])
        if page is not None and page not in {unit.name for unit in self.units}:
            return f"no page is named {page}: expected {' or '.join(unit.name for unit in self.units)}"
        if page is not None:
            found = [label for label in found if label.unit.name == page]
        elif own is not None and name in own.labels:
            found = [label for label in found if label.unit is own]
        if len(found) == 1:
            return found[0]
        if found:
            names = [f"{label.unit.name}.{name}" for label in found]
            return f"the label {name} is used in {len(found)} pages: write {' or '.join(names)}"
        return f"no {'page' if page is None else f'line of {page}'} has the label {name}{self.near(name)}"

    def near(self, name: str) -> str:
        """Returns a remark about a label whose name differs only in upper and lower case, or is in another page; or about the label or
        equate whose name is most like it."""
        others = [label for known, labels in self.labels.items() if known.lower() == name.lower() for label in labels]
        if others:
            return f"; {self.where(others[0])} has {others[0].unit.name}.{others[0].name}"
        near = nearest(name, [*self.labels, *self.project.equates])
        return near and f"; the nearest {'equate' if near in self.project.equates else 'label'} is {near}"

    def no_equate(self, name: str) -> str:
        """Returns the error that no equate has a name."""
        if not os.path.exists(self.project.path):
            return f"no equate is named {name}: only a project of tools/module has equates"
        near = nearest(name, self.project.equates)
        return f"no equate is named {name}{near and f', the nearest is {near}'}: [equates] of {self.project.path} has them"

    # References.

    def link(self, unit: Unit) -> list[str]:
        """Replaces references to labels of other banks and to equates by numbers. Returns the errors."""
        faults = []
        for at, line in enumerate(unit.lines):
            words = words_of(line.code) if b":" in line.code else []
            found = TARGET.match(words[-1]) if words[1:] and b'"' not in line.code else None
            if not found:
                continue
            page, name = found[1].decode() if found[1] else None, found[2].decode()
            is_number = words[0].decode(errors="replace") in NUMBERED
            if page is None and name in self.project.equates and (is_number or name not in self.labels):
                self.put(unit, at, self.project.equates[name].encode())
                faults += self.unfit(unit, at, name)
                continue
            label = self.find(page, name, unit)
            first = words[0].decode(errors="replace")
            if first not in (*SHORT, *ENTRIES, *NUMBERED) and not LONG.match(line.code):
                # Not an instruction with a reference: the bench reports the line.
                continue
            if isinstance(label, str) and not page and first in NUMBERED:
                label = self.no_equate(name)
            why = label if isinstance(label, str) else self.join(unit, at, label)
            if why:
                faults.append(self.fault(unit, at, why))
        return faults

    def fault(self, unit: Unit, at: int, why: str) -> str:
        """Returns the error of a reference, with its place, and remembers that its line has one."""
        self.unlinked[unit.name].add(at)
        text, code = (one.decode(errors="replace") for one in (unit.whole.told[at], unit.lines[at].code))
        column = text.find(code) + code.rfind(":") + 1
        return f"{unit.whole.place(at)}: `{shown(unit.whole.told[at].strip(BLANKS))}`: column {column}: {why}"

    def unfit(self, unit: Unit, at: int, name: str) -> list[str]:
        """Returns the error of a line that uses an equate whose value its instruction does not take; an empty list if it takes it."""
        first, value = b" ".join(words_of(unit.lines[at].code)[:-1]).decode(errors="replace"), self.project.equates[name]
        if fits(first, value):
            return []
        # Only errors need this module.
        from .operand_causes import of_equate
        return [self.fault(unit, at, of_equate(first, name, value, place_of(self.project.path, name)))]

    def join(self, unit: Unit, at: int, label: Label) -> str:
        """Replaces the reference of a line to a label. Returns the reason if this instruction cannot refer to it."""
        code = unit.lines[at].code
        if label.unit is unit:
            self.put(unit, at, b":" + label.name.encode())
            unit.lines[at].reference = label.name
            return ""
        first = words_of(code)[0].decode()
        if first in ENTRIES and label.unit.page == unit.page:
            label.unit.foreign.append(label.name)
            unit.entered[at] = label
            unit.linked[at] = b"\n".join(map(constant, (ENTRIES[first] | label.address >> 8 & 0xF, label.address & 0xFF)))
            return ""
        if not LONG.match(code):
            return why_not_joined(first, label)
        label.unit.foreign.append(label.name)
        self.put(unit, at, b"%04X" % label.address)
        return ""

    @staticmethod
    def put(unit: Unit, at: int, operand: bytes) -> None:
        """Replaces the last word of a line's code, for the bench."""
        code, text = unit.lines[at].code, unit.texts[at]
        end = text.find(code) + len(code)
        unit.linked[at] = text[:end].removesuffix(words_of(code)[-1]) + operand + text[end:]

    def share(self) -> None:
        """Gives each bank the labels of other banks that its table names, at their places in the page."""
        for unit in self.units:
            for at, label in unit.entered.items():
                unit.lines[at].reference = label.name
                unit.labels.setdefault(label.name, label.address & 0xFFF)

    # The bench's words.

    def deck(self) -> bytes:
        """Returns the blocks that plug all banks."""
        return b"".join(unit.block() for unit in self.units)

    def views(self) -> bytes:
        """Returns the commands that print the words of all banks."""
        return b"".join(b"show image %s b%d\n" % (unit.page.encode(), unit.bank.bank) for unit in self.units)

    def take(self, lines: Iterator[str]) -> None:
        """Reads what the bench prints for the deck and the views. If a source has errors, all of them are reported."""
        line = next(lines, "")
        if line.startswith("! "):
            raise self.faulty(line)
        for unit in self.units:
            data = "".join([line, *(next(lines, "") for _ in range(IMAGE_LINES - 1))])
            unit.words = [int(data[at:at + 4], 16) for at in range(0, 4 * unit.size, 4)]
            wrong = unit.wrong_jump()
            if wrong:
                raise Failure(f"{unit.whole.path}: the bench and the tool disagree about the address of {wrong}: please report it", 3)
            line = next(lines, "") if unit is not self.units[-1] else ""

    def faulty(self, refusal: str) -> Failure:
        """Returns all errors of the sources, with their usual causes."""
        faults = []
        for unit in self.units:
            # A line that became two words keeps one line here, of two words.
            unit.whole.lines = [b"        LDI 000" if b"\n" in line else line for line in unit.linked]
            faults += unit.whole.faults_of(Source(unit.whole.data()))
        if faults:
            return Faulty("\n".join(faults))
        return Failure(f"{self.project.path}: the bench refused a block: {refusal}: please report it", 3)

    def faults_of_lines(self) -> list[str]:
        """Returns the errors of lines whose references are no errors. An error of a label is the cause of errors of references to it."""
        found = []
        for unit in self.units:
            lines = [b"        LDI 000" if b"\n" in line else line for line in unit.linked]
            source = Source(b"".join(line + b"\n" for line in lines))
            found += [f"{unit.whole.place(fault.at)}: {fault}" for fault in source.faults if fault.at not in self.unlinked[unit.name]]
        return found

    def has_checksums(self) -> bool:
        """Returns whether a page has a checksum, which is computed from its words."""
        return any(unit.whole.checksum is not None for unit in self.units)

    def assemble(self) -> None:
        """Lets the bench assemble all banks. Computes the checksums, and then the lines of checksums are complete."""
        _, output = run(self.deck() + self.views(), self.project.memory)
        self.take(iter(output.decode("latin-1").split("\n")))
        for unit in self.units:
            at = unit.whole.checksum
            if at is not None:
                word = checksum_of(unit.words[:unit.places[at]])
                unit.linked[at] = constant(word)
                unit.words[unit.places[at]] = word

    # Addresses.

    def units_at(self, address: int, bank: int | None) -> list[Unit]:
        """Returns the banks with words at an address: only the given bank, or all if it is not known."""
        return [unit for unit in self.units if int(unit.page, 16) == address >> 12 and bank in (None, unit.bank.bank)]

    def has_banks(self, address: int) -> bool:
        """Returns whether the page of an address has several banks."""
        return len(self.units_at(address, None)) > 1

    def name_of(self, address: int, bank: int | None = None) -> str:
        """Returns the last label at or before an address, with the offset in hexadecimal words. An address before all labels has the name
        of its page in place of a label. Several banks are separated by a slash."""
        names = []
        for unit in self.units_at(address, bank):
            place = address & 0xFFF
            before = [(at, name) for name, at in unit.labels.items() if at <= place]
            at, name = max(before, default=(0, ""))
            label = self.full(next(one for one in self.labels[name] if one.unit is unit)) if name else unit.name
            names.append(label + (f"+{place - at:X}" if place > at or not name else ""))
        return "/".join(dict.fromkeys(names))

    def origin_of(self, address: int, bank: int | None = None) -> str:
        """Returns the file and line of the instruction at an address; several banks are separated by a slash."""
        return "/".join(filter(None, (unit.origin(address & 0xFFF) for unit in self.units_at(address, bank))))
