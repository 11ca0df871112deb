"""The files that tools/import reads: what kind each is, the lines of its block in the deck, and its errors, notes and doubts."""
from __future__ import annotations

import argparse
import os
import re
from typing import Optional, Sequence

from .comments import BESIDE
from .containers import FREE42, LIF, Member
from .counts import counted
from .decks import MARK_OF_UTF8, MARKS_OF_UTF16, block, hexadecimal, lines_of, refused, shown, text_of, words_of
from .dialects import Dialect
from .doubts import PRIVATE, PRIVATE_BIT, PRIVATE_ROWS, Doubt, at_places, of_bytes, of_line
from .exchange import wrong_counts
from .functions import Functions
from .listings import Listing
from .misplaced import CASES, PROJECT, TABLE, what_is
from .mods import Image
from .modules import lines_of_texts
from .placing import Group, Place, out_of_order
from .programs import Line, listed, numbered
from .programs import Place as Position
from .records import END, ends_of, last_end
from .sources import CR_ALONE, END_MARK, Source, Whole, assemble, source_lines, with_ends
from .spellings import read_tables

IMAGE_SIZE = 8192
IMAGE, SOURCE, RAW, LISTING, CALLS = KINDS = ("image", "source", "raw", "listing", "calls")
BY_NAME = {".rom": IMAGE, ".asm": SOURCE, ".src": SOURCE, ".raw": RAW, ".calls": CALLS,
           ".txt": LISTING, ".lst": LISTING, ".lines": LISTING, ".prg": LISTING}
PAGE_END, DECK = ".page", ".deck"

NAMED = "name an image .rom, a source .asm, bytes of a program .raw, a listing .txt, or give the kind with --as"

CONTROL = re.compile(rb"[\x00-\x08\x0b\x0e-\x1f]")


def is_page_end(path: Optional[str]) -> bool:
    """Returns whether a file describes the end of a page."""
    return path is not None and os.path.splitext(path)[1].lower() == PAGE_END


def is_deck(path: str) -> bool:
    """Returns whether a file is a deck, by its name."""
    return os.path.splitext(path)[1].lower() == DECK


class Input:
    """What has a block in the deck, or might have one: a file, a part of a container, or the page of a module."""

    def __init__(self, path: str) -> None:
        """Begins without a block."""
        self.path = path
        self.kind: Optional[str] = None
        self.data = b""
        # The container of which it is a part, and the image of a page in a file .mod.
        self.container: Optional[str] = None
        self.of_mod: Optional[Image] = None
        # The options directly before the file, and its page, its bank and whether it is writable.
        self.group: Optional[Group] = None
        self.placed: Optional[Place] = None
        self.errors: list[str] = []
        self.notes: list[str] = []
        self.doubts: list[Doubt] = []
        # The lines of the block; the lines of a source with the end of its page, and its labels with their places.
        self.lines: list[bytes] = []
        self.whole: Optional[Whole] = None
        self.source_labels: dict[str, int] = {}
        # The page that a source names by ORG.
        self.origin: Optional[str] = None
        # The listing that was read, and the lines of a program, each after its place.
        self.read: Optional[Listing] = None
        self.program: Sequence[Line] = []
        # Whether it is no program: a part of a container of another kind, or a text in an image that is no listing.
        self.is_skipped = False

    def error(self, text: str, line: Optional[int] = None) -> None:
        """Adds an error, for a line or for the whole file."""
        self.errors.append(f"{self.path}{'' if line is None else f':{line}'}: {text}")

    def note(self, text: str, line: Optional[int] = None) -> None:
        """Adds a note, for a line or for the whole file."""
        self.notes.append(f"{self.path}{'' if line is None else f':{line}'}: {text}")

    def doubt(self, name: str, place: Position, text: str) -> None:
        """Adds a doubt about a line of a program."""
        if self.read is not None and isinstance(place, int):
            self.read.doubt(name, place, text, self.read.lines[place - 1])
            return
        line, _, program = str(place).partition(" of program ")
        self.doubts.append(Doubt(name, int(line), 1, text, int(program or 1)))

    def all_doubts(self) -> list[Doubt]:
        """Returns the doubts about the file."""
        return self.doubts + (self.read.doubts if self.read is not None else [])

    def is_program(self, _kind: Optional[str]) -> bool:
        """Returns whether a file of this kind is part of a module."""
        return False

    def place(self, at: int) -> str:
        """Returns the place of a line of the block, counted from 0, for a message."""
        return self.whole.place(at) if self.whole is not None else f"{self.path}:{at + 1}"

    def plugs(self) -> Optional[bytes]:
        """Returns a block that plugs the page of the file; None if it is not a page, or has errors."""
        return None

    def placed_lines(self) -> list[bytes]:
        """Returns the lines of the block, for the page at which it is placed."""
        return self.whole.at_page(self.placed.page) if self.whole is not None and self.placed is not None else self.lines


class File(Input):
    """A file: its kind, and the lines of its block. A source may have a description of the end of its page."""

    def __init__(self, member: Member, options: argparse.Namespace, end: Optional[str] = None, before: Optional[str] = None) -> None:
        """Reads a file that is not a listing; listings need the functions of all files. `before` is the path before it."""
        super().__init__(member.path)
        self.options, self.end, self.before = options, end, before
        self.data, self.given, self.container, self.of_mod = member.data, member.kind, member.container, member.image
        self.notes = [f"{self.path}: {text}" for text in member.notes if text != PRIVATE_ROWS]
        self.doubts = [Doubt(PRIVATE, 1, 1, PRIVATE_ROWS) for text in member.notes if text == PRIVATE_ROWS]
        # The numbers of the lines of a listing for the lines of the block.
        self.numbers: list[int] = []
        self.kind = self.kind_of()
        if self.kind in (SOURCE, LISTING, CALLS):
            self.put_ends()
        if self.kind == SOURCE:
            self.read_dialect()
        if self.kind is not None and self.kind != LISTING and not self.errors:
            {IMAGE: self.image, SOURCE: self.source, RAW: self.raw, CALLS: self.calls}[self.kind]()

    def is_text(self) -> bool:
        """Returns whether the bytes are text."""
        try:
            self.data.decode("utf-8")
        except UnicodeDecodeError:
            return False
        return not CONTROL.search(self.data.rstrip(END_MARK))

    def kind_of(self) -> Optional[str]:
        """Returns the kind of the file: that of --as, or by its name, or by its content. If it cannot be used, adds an error and returns
        None."""
        kind: Optional[str] = self.given or self.options.kind or BY_NAME.get(os.path.splitext(self.path)[1].lower())
        if not self.data:
            self.error("the file is empty, expected a program, a listing, a source, an image or a disk image")
        elif is_page_end(self.path):
            self.error(out_of_order(self.before))
        elif self.end and kind not in (None, SOURCE) and not self.is_program(kind):
            self.error(f"found a file of kind {kind} before {self.end}, which describes a page's end, expected a source: FILE.asm "
                       "FILE.page")
        elif not kind and is_deck(self.path):
            self.error("this is a deck already: run it with ./bench run, or give another kind with --as")
        elif not kind and what_is(self.path, CASES, PROJECT, TABLE):
            self.error(what_is(self.path, CASES, PROJECT, TABLE))
        elif kind in (IMAGE, RAW) and not self.given and not self.options.kind and self.is_text():
            self.error(f"found a text, expected {'an image' if kind == IMAGE else 'bytes of a program'}: {NAMED}")
        elif kind in (SOURCE, LISTING, CALLS) and self.data[:2] in MARKS_OF_UTF16:
            self.error("the text is in UTF-16: save it as UTF-8")
        elif kind:
            return kind
        elif self.is_text():
            return self.kind_of_text()
        elif len(self.data) == IMAGE_SIZE:
            return IMAGE
        elif self.data[:2] in MARKS_OF_UTF16:
            self.error("the text is in UTF-16: save it as UTF-8")
        else:
            self.error(f"found {counted(len(self.data), '{} byte', '{} bytes')}, expected a text in UTF-8 or an image of "
                       f"{IMAGE_SIZE} bytes: {NAMED}")
        return None

    def is_program(self, kind: Optional[str]) -> bool:
        """Returns whether a file of this kind is part of a module."""
        return self.options.module is not None and kind in (RAW, LISTING)

    def kind_of_text(self) -> Optional[str]:
        """Returns whether a text is a listing or a source, by what the bench can read it as."""
        is_source, bad = self.assembles(), Listing(self.decoded(), functions=Functions(read_tables())).bad
        if is_source == bool(bad):
            return SOURCE if is_source else LISTING
        if is_source:
            self.error(f"the text can be read both as a listing and as a source: {NAMED}")
            return None
        number, line, reason = bad[0]
        no_line = f" (line {number}, `{shown(line)}`: not a program line{f': {reason}' if reason else ''})"
        self.error(f"the text can be read neither as a listing{no_line} nor as a source{self.why_no_source()}: {NAMED}")
        return None

    def assembles(self) -> bool:
        """Returns whether the text is a source without errors."""
        lines = source_lines(with_ends(self.data))
        return [b"end"] not in map(words_of, lines) and refused(block(b"asm 8", lines))[0] == 0

    def why_no_source(self) -> str:
        """Returns the first error of the text as a source, in brackets for a message; an empty text if there is none in a line."""
        lines = source_lines(with_ends(self.data))
        _, fault = assemble(lines)
        return f" (line {fault[0] + 1}, `{shown(lines[fault[0]])}`: {fault[1]})" if fault else ""

    def put_ends(self) -> None:
        """Replaces the line ends of a text by LF, and removes ^Z at its end."""
        if self.data.endswith(END_MARK):
            self.note("^Z at the end is removed")
        if self.kind == SOURCE and CR_ALONE.search(self.data):
            self.note("the lines end in CR alone; `bench asm` reads them as one line")
        self.data = with_ends(self.data)

    def decoded(self) -> list[str]:
        """Returns the lines of a text without its byte order mark. If it is not a text, adds an error."""
        data = with_ends(self.data).removeprefix(MARK_OF_UTF8)
        for number, line in enumerate(data.split(b"\n"), 1):
            control = CONTROL.search(line)
            try:
                line.decode("utf-8")
            except UnicodeDecodeError as error:
                column = len(line[:error.start].decode()) + 1
                self.error(f"column {column}: byte {line[error.start]:02X} is not valid UTF-8: convert the text, for example with "
                           "`iconv -f latin1 -t utf-8`, or name bytes of a program .raw, an image .rom", number)
                return []
            if control:
                column = len(line[:control.start()].decode()) + 1
                self.error(f"column {column}: byte {control[0].hex().upper()} is a control character, expected text: name bytes of a "
                           "program .raw, an image .rom", number)
                return []
        lines = re.split("\r?\n", data.decode("utf-8"))
        return lines[:-1] if lines[-1] == "" else lines

    # The lines of the blocks.

    def image(self) -> None:
        """Reads an image, with its bytes in the right order."""
        if self.of_mod:
            self.lines = hexadecimal(self.data)
            return
        if len(self.data) != IMAGE_SIZE:
            pages, rest = divmod(len(self.data), IMAGE_SIZE)
            hint = f"; split the {pages} pages with `split -b {IMAGE_SIZE}`" if pages > 1 and rest == 0 else ""
            hint = "; images packed with ten bits a word are supported only in .mod files" if len(self.data) == 5120 else hint
            self.error(f"found {counted(len(self.data), '{} byte', '{} bytes')}, expected an image of {IMAGE_SIZE}{hint}")
            return
        swapped = bytes(byte for at in range(0, IMAGE_SIZE, 2) for byte in (self.data[at + 1], self.data[at]))
        data = self.data
        if is_swapped(words_in(data), words_in(swapped)):
            if not self.options.swap:
                self.error("the low byte of each word comes first: swap the bytes with --swap")
                return
            self.note("the two bytes of each word are swapped")
            data = swapped
        wide = [at for at, word in enumerate(words_in(data)) if word > 0x3FF]
        if wide:
            self.error(f"found {counted(len(wide), '{} word', '{} words')} above 3FF, the first is {words_in(data)[wide[0]]:04X} at "
                       f"{wide[0]:03X}; an image has words from 000 to 3FF, and the other byte order gives words above 3FF too")
            return
        if self.options.swap and data is self.data:
            self.note("--swap changes nothing: the high byte of each word comes first already")
        self.lines = hexadecimal(data)

    def raw(self) -> None:
        """Reads the bytes of a program. The bench decides whether they are lines, and where the first END is."""
        self.lines = hexadecimal(self.data)
        length = first_end(self.data)
        rest = self.data[length:] if length else b""
        texts = listed(self.data)
        self.program = numbered(enumerate(texts[:-1], 1)) if texts else []
        self.doubts += of_bytes(self.data) if texts is not None else []
        for place, text in self.program:
            line, _, program = str(place).partition(" of program ")
            self.doubts += at_places(of_line(text), int(line), text, int(program or 1))
        if texts is None:
            if rest:
                self.note(f"its first END ends at byte {length}; `head -c {length}` removes what follows")
        elif length and rest.strip(b"\0"):
            self.note(counted(len(rest), f"{{}} byte after its first END, at byte {length}, is a further program",
                              f"{{}} bytes after its first END, at byte {length}, are further programs"))
        elif length and rest:
            self.note(f"{counted(len(rest), '{} null byte after its END is', '{} null bytes after its END are')} ignored")
        own = last_end(self.data)
        if own and own != END and not own[-1] & PRIVATE_BIT:
            self.note(f"its last END, {own.hex(' ').upper()}, becomes C0 00 0D")

    def read_dialect(self) -> None:
        """Translates a source in another dialect."""
        dialect = Dialect(source_lines(self.data), self.options.decimal)
        self.origin = dialect.origin
        if dialect.told or dialect.notes:
            mark = MARK_OF_UTF8 if self.data.startswith(MARK_OF_UTF8) else b""
            self.data = mark + b"".join(line + b"\n" for line in dialect.lines)
        for number, text in dialect.told:
            self.note(text, number)
        for text in dialect.notes:
            self.note(text)

    def source(self) -> None:
        """Reads a source, and collects all its errors. Notes what `bench asm` would refuse."""
        self.whole = whole = Whole(self.path, self.data, self.end)
        self.lines = whole.lines
        if self.data.startswith(MARK_OF_UTF8):
            self.note("the byte order mark is removed; `bench asm` refuses it")
        for number, line in enumerate(source_lines(self.data), 1):
            if line.startswith(b"#"):
                self.note(f"`{shown(line)}`: a comment of decks; `bench asm` refuses it: begin it with ;", number)
        source = Source(whole.data())
        self.source_labels = source.labels
        self.errors += whole.faults_of(source)

    def calls(self) -> None:
        """Reads commands of a deck. Their labels are replaced when the deck is made."""
        self.lines = [text_of(line) for line in lines_of(self.data.removeprefix(MARK_OF_UTF8))]

    def place(self, at: int) -> str:
        """Returns the place of a line of the block, counted from 0, for a message."""
        if self.whole is not None:
            return self.whole.place(at)
        return f"{self.path}:{self.numbers[at] if self.numbers else at + 1}"

    def plugs(self) -> Optional[bytes]:
        """Returns a block that plugs the page of the file; None if it is not a page, or has errors."""
        opener = {IMAGE: b"image 8", SOURCE: b"asm 8"}.get(self.kind or "")
        return block(opener, self.lines) if opener and not self.errors else None

    def listing(self, functions: Functions) -> None:
        """Reads a listing, and translates it to the spellings of the bench. `functions` are the known functions of modules."""
        lines = self.decoded()
        if self.errors:
            return
        listing = Listing(lines, functions=functions)
        self.is_skipped = self.container == LIF and listing.is_foreign()
        if self.is_skipped:
            self.note(f"a text of {counted(len(lines), '{} line', '{} lines')} that is no listing: skipped")
            return
        for text in listing.notes:
            self.note(text)
        for number, text in listing.told:
            self.note(text, number)
        self.read = listing
        for number, text in enumerate(listing.texts, 1):
            beside = [f"{BESIDE}{listing.beside[number]}"] if number in listing.beside else []
            self.lines += [line.encode() for line in (text, *beside)]
            self.numbers += [number] * (1 + len(beside))
        program = [(number, text) for number, text in enumerate(listing.texts, 1) if text and not text.startswith("#")]
        self.program = program
        for number in [number for number, text in program[:-1] if text == ".END."]:
            self.error("`.END.`: not the last line: separate programs with END", number)
        if self.container == FREE42 and not listing.bad:
            for number, text in wrong_counts(lines, program, lambda texts: lines_of_texts(texts) or []):
                self.error(text, number)
        for number, line, reason in listing.bad:
            self.error(f"`{shown(line)}`: not a program line{f': {reason}' if reason else ''}", number)
        if listing.bad:
            count = listing.unread
            self.error(f"{counted(count, '{} line', '{} lines')} of {len(lines)} cannot be read"
                       + ("; the text can be assembled: name it .asm, or give --as source" if self.assembles() else ""))



class Skipped(Input):
    """A part of a container that is no program. It has no lines."""

    def __init__(self, member: Member) -> None:
        """Notes what the part is."""
        super().__init__(member.path)
        self.container, self.kind, self.data, self.is_skipped = member.container, member.kind, member.data, True
        self.notes = [f"{self.path}: {text}" for text in member.notes]


def words_in(data: bytes) -> list[int]:
    """Returns the words of an image, the high byte first."""
    return [data[at] << 8 | data[at + 1] for at in range(0, len(data), 2)]


def begins_module(words: list[int]) -> bool:
    """Returns whether the first two words are a module number and a count of functions."""
    return 1 <= words[0] <= 31 and 1 <= words[1] <= 64


def is_swapped(words: list[int], others: list[int]) -> bool:
    """Returns whether the bytes of an image are swapped: it has words above 3FF only in this order, or in neither order but begins as a
    module only in the other one."""
    if max(others) > 0x3FF:
        return False
    return max(words) > 0x3FF or begins_module(others) and not begins_module(words)


def first_end(data: bytes) -> Optional[int]:
    """Returns the number of bytes up to the first END, including it; None if there is no END, or if the bytes before it are not whole
    lines. An .END. is none."""
    end = next((end for end in ends_of(data) if not data[end - 1] & 0x20), None)
    return end if end is not None and listed(data[:end - 3]) is not None else None
