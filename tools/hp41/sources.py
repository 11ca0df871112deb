"""Sources for the assembler: finds their errors, and the addresses and words of their lines and labels, as the bench determines them.
Adds the lines of a description of the end of a page."""
from __future__ import annotations

import re
import subprocess
from itertools import product
from string import ascii_letters
from typing import Iterable, Optional

from .decks import (BENCH, LONGEST_LINE, MARK_OF_UTF8, MARKS_OF_UTF16, NO_ANSWER, Failure, block, bytes_of, ended, lines_of, refused, shown,
                    text_of, words_of)
from .matches import begin
from .misplaced import of_content

BLANKS = b" \t"
PAGES = "456789ABCDEF"
PAGE_SIZE = 4096

# Where sources are assembled to find the places of lines, which do not depend on the origin. After it there is room for the jumps that
# are added.
ORIGIN = 0x4000

# ^Z at the end of a file, and CR as a line end.
END_MARK = b"\x1a"
CR_ALONE = re.compile(rb"\r(?!\n)")

NAME = rb"[A-Za-z][0-9A-Za-z_]{0,11}"
LABEL = re.compile(rb"(" + NAME + rb"):(?:[ \t]+|\Z)")
REFERENCE = re.compile(rb":(" + NAME + rb")\Z")
LOOKS_LIKE_LABEL = re.compile(rb"[ \t]*(" + NAME + rb")(?![0-9A-Za-z_])")
CODE = re.compile(rb'(?:[^;"]|"[^"]*"|"[^"]*\Z)*')

# Instructions by what they do to the carry. Sums, differences and tests set it by their result; all others clear it, so it is clear at
# each jump target and after each return.
ASKS = re.compile(r"(?:JC|JNC|\?N?C (?:XQ|GO)) \S+|\?N?C RTN")
ASKS_FOR_SET = re.compile(r"(?:JC|\?C (?:XQ|GO)) \S+|\?C RTN")
TEST = re.compile(r"\?(?!N?C (?:XQ|GO|RTN)\b).*")
SUM = re.compile(r"[AC]=\S*[+-]\S* \S+")

# Instructions after which the next one is not executed: the first kind only if the carry is clear.
GOES = re.compile(r"(?:JNC|\?NC GO) \S+|\?NC RTN")
ENDS = re.compile(r"RTN|GOTO ADR|GOTO KEY")

# Errors that a line has on its own.
OF_THE_LINE = ("! 30 BadLine", "! 31 BadOperand")


class Faulty(Failure):
    """A source has errors. The text has a line for each of them."""


def with_ends(data: bytes) -> bytes:
    """Returns a text in which LF replaces CR as a line end, without ^Z at its end."""
    return CR_ALONE.sub(b"\n", data.rstrip(END_MARK))


def text_in(path: str) -> bytes:
    """Returns the text of a file. UTF-16 is refused."""
    data = bytes_of(path)
    if data.startswith(MARKS_OF_UTF16):
        raise Faulty(f"{path}: the text is in UTF-16: save it as UTF-8")
    return with_ends(data)


def source_in(path: str) -> bytes:
    """Returns the text of a file that is a source. Other files are refused with what they may be."""
    data = text_in(path)
    commands = [words_of(line)[:2] for line in data.split(b"\n") if words_of(line) and not line.startswith(b"#")]
    why = ("the file is empty: expected a source" if not data.strip() else of_content(data) or
           ("this is an image of a page, expected a source: plug it with tools/import, and write a source with tools/export source"
            if path.lower().endswith(".rom") else
            f"found a byte 00 in line {data[:data.index(0)].count(10) + 1}, which no text has, expected a source: bytes of a program and "
            "images are for tools/import" if b"\0" in data else
            "this is a deck, expected a source: run it with ./bench run" if path.lower().endswith(".deck") or is_deck(commands) else
            "this is a project file, expected a source: use tools/module" if path.lower().endswith(".toml") else
            "this is a file of cases, expected a source: `tests` of a project names it" if path.lower().endswith(".cases") else
            "this is a file of commands, expected a source: give it to tools/import after the source" if path.lower().endswith(".calls") else
            "this is a table of inputs, expected a source: tools/module test --table runs it" if path.lower().endswith(".csv") else None))
    if why:
        raise Faulty(f"{path}: {why}")
    return data


def is_deck(commands: list[list[bytes]]) -> bool:
    """Returns whether the first words of lines are those of a deck that opens a block of a page."""
    return bool(commands) and commands[0][0] in (b"asm", b"words", b"image") and len(commands[0]) == 2 and [b"end"] in commands


def source_lines(data: bytes) -> list[bytes]:
    """Returns the lines of a source without line ends, and without a byte order mark. A comment may be long, as in `bench asm`: it is
    cut."""
    lines = [text_of(line) for line in lines_of(data.removeprefix(MARK_OF_UTF8))]
    return [line[:LONGEST_LINE] if len(begin(CODE, line)[0]) < LONGEST_LINE else line for line in lines]


def without_comments(lines: Iterable[bytes]) -> list[bytes]:
    """Returns lines of a source in which comments of a deck, which begin with #, are replaced by empty lines."""
    return [b"" if line.startswith(b"#") else line for line in lines]


def assemble(lines: Iterable[bytes], origin: int = ORIGIN) -> tuple[list[int], Optional[tuple[int, str]]]:
    """Assembles lines. Returns the words and None, or no words and the first error: its line, counted from 0, and the refusal without the
    line number."""
    ran = subprocess.run([BENCH, "asm", "--origin", f"{origin:04X}", "-"], input=b"".join(line + b"\n" for line in lines),
                         stdout=subprocess.PIPE)
    if ran.returncode == NO_ANSWER:
        raise Failure("./bench gave no answer: see its message above", NO_ANSWER)
    if ran.returncode == 1:
        refusal, number = ran.stdout.decode().rsplit(" ", 1)
        return [], (int(number) - 1, refusal)
    if ran.returncode:
        raise Failure(ended(ran.returncode, "when it was asked to assemble the source"), 3)
    return [int(word, 16) for word in ran.stdout.split()], None


class Line:
    """A line of a source: its label, its code after the label, the label that it refers to, and its comment. Each is empty or None if it
    is missing. In a line with an error they are guesses."""

    def __init__(self, text: bytes) -> None:
        """Reads a line."""
        self.text = text
        code = begin(CODE, text)[0]
        self.comment = text[len(code):].decode(errors="replace")
        code = code.strip(BLANKS)
        label = LABEL.match(code)
        self.label = label[1].decode() if label else None
        self.code = code[label.end():] if label else code
        words = words_of(self.code)
        reference = REFERENCE.match(words[-1]) if words[1:] and b'"' not in self.code else None
        self.reference = reference[1].decode() if reference else None

    def instruction(self) -> str:
        """Returns the instruction or directive with its operand, with one space between two words."""
        return b" ".join(words_of(self.code)).decode(errors="replace")

    def referring_to(self, name: bytes) -> bytes:
        """Returns the line with a reference as its last word."""
        label = self.label.encode() + b": " if self.label else b" "
        return label + self.code.removesuffix(words_of(self.code)[-1]) + b":" + name


class Fault:
    """An error in a source: the line, counted from 0, its text, the refusal, and causes."""

    def __init__(self, at: int, text: bytes, refusal: str) -> None:
        """Begins without causes."""
        self.at, self.text, self.refusal = at, text, refusal
        self.told: list[str] = []

    def __str__(self) -> str:
        """Returns the message without the place: the line, the refusal and the causes."""
        return ": ".join([f"`{shown(self.text.strip(BLANKS))}`", self.refusal, *filter(None, ["; ".join(self.told)])])


class Source:
    """A source: its lines, and either its errors, or the places of its lines and labels in the page and its number of words."""

    def __init__(self, data: bytes) -> None:
        """Reads a source, and lets the bench assemble it."""
        self.faults: list[Fault] = []
        self.labels: dict[str, int] = {}
        self.size = 0
        self.texts = source_lines(data)
        self.lines = [Line(text) for text in without_comments(self.texts)]
        letters = next(name for name in map("".join, product(ascii_letters, repeat=2)) if f"{name}_".encode() not in data)
        self.marks = [f"{letters}_{at}".encode() for at in range(len(self.lines) + 1)]
        for at, text in enumerate(self.texts):
            if len(text) > LONGEST_LINE:
                self.fault(at, f"the line has {len(text)} bytes, expected at most {LONGEST_LINE}")
            elif words_of(text) == [b"end"]:
                self.fault(at, "`end` alone on a line would end the block of the deck")
        self.find_places()
        self.faults.sort(key=lambda fault: fault.at)

    def fault(self, at: int, refusal: str) -> None:
        """Adds an error of a line."""
        self.faults.append(Fault(at, self.texts[at], refusal))

    def find_places(self) -> None:
        """Finds places and errors. Each line gets a label of its own, and a long jump to each label follows the source: the words of
        these jumps contain the addresses."""
        texts = [b"" if at in self.faulty() else line.text for at, line in enumerate(self.lines)]
        while True:
            names = list(dict.fromkeys([*self.marks, *(line.label.encode() for line in map(Line, texts) if line.label)]))
            lines = [part for mark, text in zip(self.marks, texts) for part in (mark + b":", text)]
            words, fault = assemble([*lines, self.marks[-1] + b":", *(b"?NC GO :" + name for name in names)])
            if not fault:
                break
            at, refusal = fault[0] // 2, fault[1]
            if refusal in OF_THE_LINE and at < len(texts):
                wrong = self.faults_of_lines()
                if at not in wrong:
                    self.fault(at, refusal)
                for at in {at, *wrong}:
                    texts[at] = self.kept_of(at)
            elif at < len(texts) and refusal != "! 35 TooLong":
                if at not in self.faulty():
                    self.fault(at, refusal)
                line = Line(texts[at])
                texts[at] = b" " + line.code if refusal == "! 32 LabelTwice" else line.referring_to(self.marks[at])
            else:
                self.fault(min(at, len(texts) - 1), refusal)
                self.places = [0 for _ in self.marks]
                return
        jumps = words[len(words) - 2 * len(names):]
        places = {name.decode(): (low >> 2 | high >> 2 << 8) - ORIGIN
                  for name, low, high in zip(names, jumps[::2], jumps[1::2])}
        self.places = [places[mark.decode()] for mark in self.marks]
        self.size = self.places[-1]
        self.labels = {line.label: places[line.label] for line in self.lines if line.label in places}
        for one in self.faults:
            one.told = self.known_of(one, places)
        if self.faults:
            # Only errors need this module, which takes time to load.
            from .usual_causes import tell_causes
            tell_causes(self.faults)

    def faulty(self) -> set[int]:
        """Returns the lines with errors."""
        return {fault.at for fault in self.faults}

    def faults_of_lines(self) -> list[int]:
        """Finds errors that lines have on their own, and returns these lines. The bench assembles each line alone, for page 3, which it
        refuses only if the line has no error."""
        faulty = self.faulty()
        asked = [at for at, line in enumerate(self.lines) if at not in faulty and line.text.strip(BLANKS)]
        _, found = refused(b"".join(block(b"asm 3", [self.lines[at].text]) for at in asked))
        wrong = [(asked[first // 3], refusal.rsplit(" ", 1)[0]) for first, _, refusal in found]
        wrong = [(at, refusal) for at, refusal in wrong if refusal in OF_THE_LINE]
        for at, refusal in wrong:
            self.fault(at, refusal)
        return [at for at, _ in wrong]

    def kept_of(self, at: int) -> bytes:
        """Returns what is kept of a line with an error: its label, or a word that may be meant as one, so that references to it are not
        errors too."""
        line = self.lines[at]
        name = line.label.encode() if line.label else None
        if not name and next(fault for fault in self.faults if fault.at == at).refusal == OF_THE_LINE[0]:
            found = LOOKS_LIKE_LABEL.match(line.text)
            name = found[1] if found else None
        return name + b":" if name else b""

    def known_of(self, fault: Fault, places: dict[str, int]) -> list[str]:
        """Returns the causes of an error of a label or a reference."""
        line = self.lines[fault.at]
        column = f"column {fault.text.rfind(b':' + (line.reference or '').encode()) + 1}: "
        if fault.refusal == "! 32 LabelTwice":
            label = line.label or ""
            return [f"column {fault.text.find(label.encode()) + 1}: line {self.line_of(label) + 1} has the label {label} already"]
        if fault.refusal == "! 33 NoLabel" and line.reference:
            # Only errors need this module.
            from .projects import nearest
            other = nearest(line.reference, [name for name in self.labels if name])
            is_long = line.code.startswith(b"?") and not other
            return [f"{column}no line has the label {line.reference}"
                    + (f"; line {self.line_of(other) + 1} has {other}" if other else "")
                    + ("; if it is in another page, name both sources, or use a project of tools/module; if it is in HP's ROM, "
                       "write its address" if is_long else "")]
        if fault.refusal == "! 34 TooFar" and line.reference:
            distance = places[line.reference] - self.places[fault.at]
            least = "at least " if any(other.refusal in OF_THE_LINE for other in self.faults) else ""
            return [f"{column}{line.reference} is {least}{abs(distance)} words {'back' if distance < 0 else 'ahead'}"]
        return []

    # Questions about a source without errors.

    def line_of(self, label: Optional[str]) -> int:
        """Returns the first line with a label, counted from 0."""
        return next(at for at, line in enumerate(self.lines) if line.label == label)

    def uses_of(self, label: str) -> list[int]:
        """Returns the lines that refer to a label, counted from 0."""
        return [at for at, line in enumerate(self.lines) if line.reference == label]


# The end of a page.

# The first word of a page that the calculator reads by itself, and the places of its id and its checksum.
FIRST_POLLED, ID_PLACE, CHECKSUM_PLACE = 0xFF4, 0xFFB, 0xFFF

OF_THE_END = {b"fill": (re.compile(rb"fill[ \t]+([0-3][0-9A-Fa-f]{2})"), "`fill HHH`, a word up to 3FF"),
              b"at": (re.compile(rb"at[ \t]+([0-9A-Fa-f]{3})"), "`at HHH`, a place in the page"),
              b"id": (re.compile(rb'id[ \t]+"([ !#-_]{4})"'), '`id "MA1A"`, four characters of names'),
              b"checksum": (re.compile(rb"(checksum)"), "`checksum` alone")}


def constant(word: int) -> bytes:
    """Returns a source line that gives one word."""
    return b"        CON %03X" % word


def directive_of(line: Line) -> bytes:
    """Returns the first word of a line without a label, in lower case: it may be a directive of a description."""
    return b"" if line.label else (words_of(line.code) or [b""])[0].lower()


# The file and the number of a line.
Origin = tuple[str, int]


class Whole:
    """The lines of a source, and after them the lines that a description puts at the end of its page.

    `origins` has the file and number of each line, `told` its text, and `fills` the lines that only fill the page; `checksum` is the line
    of the checksum, and `faults` are the errors of the description."""

    def __init__(self, path: str, data: bytes, end: Optional[str] = None) -> None:
        """Takes the file and the text of a source, and the file of the description, if there is one."""
        self.path, self.lines = path, source_lines(data)
        self.told = list(self.lines)
        self.origins = [(path, number) for number in range(1, len(self.lines) + 1)]
        self.fills: set[int] = set()
        self.checksum: Optional[int] = None
        self.faults: list[str] = []
        if end is not None:
            self.describe(end, source_lines(text_in(end)))

    def data(self) -> bytes:
        """Returns the lines as the bytes of a source."""
        return b"".join(line + b"\n" for line in self.lines)

    def add(self, line: bytes, origin: Origin, told: bytes = b"") -> None:
        """Adds a line."""
        self.lines.append(line)
        self.told.append(told)
        self.origins.append(origin)

    def describe(self, path: str, texts: list[bytes]) -> None:
        """Adds the lines of a description. The bench assembles the source together with the lines of the description to find how many
        words each has."""
        rows = list(zip(texts, map(Line, without_comments(texts))))
        codes = [text for text, line in rows if directive_of(line) not in OF_THE_END]
        places = Source(self.data() + b"".join(text + b"\n" for text in codes)).places[len(self.lines):]
        sizes = iter(behind - before for before, behind in zip(places, places[1:]))
        self.end, self.fill = places[0], 0
        for number, (text, line) in enumerate(rows, 1):
            if directive_of(line) in OF_THE_END:
                self.carry_out(directive_of(line), line.code, (path, number), text)
            else:
                self.add(text, (path, number), text)
                self.end += next(sizes)

    def carry_out(self, directive: bytes, code: bytes, origin: Origin, text: bytes) -> None:
        """Adds the lines for a directive of the description."""
        form, meant = OF_THE_END[directive]
        found = form.fullmatch(code)
        if not found:
            self.fault(origin, f"expected {meant}", text)
        elif directive == b"fill":
            self.fill = int(found[1], 16)
            self.add(b"", origin, text)
        elif directive == b"at":
            self.add(b"", origin, text)
            self.fill_up_to(int(found[1], 16), origin, text)
        elif directive == b"id":
            self.fill_up_to(ID_PLACE, origin, text)
            for letter, told in zip(reversed(found[1]), [text, b"", b"", b""]):
                self.add(constant(letter % 64), origin, told)
            self.end += 4
        else:
            self.fill_up_to(CHECKSUM_PLACE, origin, text)
            self.checksum = len(self.lines)
            self.add(constant(0), origin, text)
            self.end += 1

    def fill_up_to(self, goal: int, origin: Origin, text: bytes) -> None:
        """Adds lines that fill the page up to a place."""
        if self.end > goal:
            why = f"the words before this line take the places up to {self.end - 1:03X}, but it needs those from {goal:03X} on"
            self.fault(origin, why, text)
        for place in range(self.end, goal):
            self.fills.add(len(self.lines))
            self.add(constant(self.fill if place < FIRST_POLLED else 0), origin)
        self.end = max(self.end, goal)

    def fault(self, origin: Origin, why: str, text: bytes) -> None:
        """Adds an error of the description."""
        self.faults.append("{}:{}: `{}`: {}".format(*origin, shown(text.strip(BLANKS)), why))

    def place(self, at: int) -> str:
        """Returns the file and number of a line."""
        return "{}:{}".format(*self.origins[at])

    def faults_of(self, source: Source) -> list[str]:
        """Returns the errors of the source, or if there are none, the error that it does not fit into a page."""
        return self.faults_of_lines(source) or self.faults_of_size(source)

    def faults_of_lines(self, source: Source) -> list[str]:
        """Returns the errors of lines."""
        return [f"{self.place(fault.at)}: {fault}" for fault in source.faults] + self.faults

    def faults_of_size(self, source: Source) -> list[str]:
        """Returns the error that the words do not fit into a page."""
        full = next((at for at, behind in enumerate(source.places[1:]) if behind > PAGE_SIZE), None)
        if full is None:
            return []
        return [f"{self.place(full)}: `{shown(self.told[full].strip(BLANKS))}`: ! 04 BadImage: found {source.size:,} words, expected "
                f"at most {PAGE_SIZE:,}, one page"]

    def at_page(self, page: str) -> list[bytes]:
        """Returns the lines for a page, with the checksum of the words before it, if there is one."""
        if self.checksum is None:
            return self.lines
        words, _ = assemble(without_comments(self.lines[:self.checksum]), int(page, 16) << 12)
        lines = list(self.lines)
        lines[self.checksum] = constant(checksum_of(words))
        return lines


def checksum_of(words: Iterable[int]) -> int:
    """Returns the checksum of words: they are added with end-around carry in ten bits, and the checksum is the two's complement of the
    sum."""
    total = 0
    for word in words:
        total += word
        total = (total & 0x3FF) + (total >> 10)
    return -total & 0x3FF


class Assembled(Source):
    """A source without errors at a page, in the bank with a number: its words, and the end of the page from a description. A source with
    errors is refused with all of them."""

    def __init__(self, path: str, page: str, end: Optional[str] = None, number: int = 1) -> None:
        """Assembles the source in a file, with the description in another one, if there is one."""
        whole = Whole(path, source_in(path), end)
        super().__init__(whole.data())
        self.page, self.number, self.whole = page, number, whole
        faults = whole.faults_of_lines(self)
        if faults:
            raise Faulty("\n".join(faults))
        # A word or a label past FFFF is an error of its line, and is reported before errors of the page.
        self.words, fault = assemble(without_comments(whole.at_page(page)), int(page, 16) << 12)
        if fault:
            raise Faulty(f"{whole.place(fault[0])}: {Fault(fault[0], self.texts[fault[0]], fault[1])}")
        faults = whole.faults_of_size(self)
        if faults:
            raise Faulty("\n".join(faults))

    def address(self, place: int) -> str:
        """Returns the address of a place in the page, or of the place after its end."""
        return f"{(int(self.page, 16) << 12) + place:04X}"

    def words_of_line(self, at: int) -> list[int]:
        """Returns the words of a line."""
        return self.words[self.places[at]:self.places[at + 1]]
