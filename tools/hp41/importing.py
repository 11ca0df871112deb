"""The deck that tools/import makes of files: gives each file its place, makes the lines of the deck, and finds its errors."""
from __future__ import annotations

import argparse
import os
import re
from typing import Iterator, Optional

from .containers import WITH_NAMES, members_of, only
from .decks import LONGEST_LINE, NO_ANSWER, Failure, ended, hexadecimal, items_of, lines_of, refused, shown, with_keys, words_of
from .decks import names_in as keys_in
from .elsewhere import tell_pages
from .functions import Functions, functions_of
from .inputs import CALLS, IMAGE, LISTING, RAW, SOURCE, File, Input, Skipped, is_page_end
from .keyboard import KEYS
from .mods import pages_of
from .module_pages import ModulePage, doubt_comments, names_given
from .placing import FIRST_PAGE, Places
from .programs import broken, greatest_size, judged, names_in, why_lost
from .programs import parted as parted_at_ends
from .records import DATA, OTHER, with_its_end
from .refusals import OF_A_LINE
from .sources import BLANKS
from .spellings import read_tables
from .typed import NoKeys

# `run` without a count in commands: up to the end, or the largest count of the bench.
RUN, RUN_TO_END = [b"run"], b"run 9999999"

# Commands that take an address or a label with an offset in words.
OF_ADDRESSES = (b"call", b"list", b"break", b"unbreak")
REFERENCE = re.compile(rb"(?<![^ \t]):([A-Za-z]\w{0,11})(?:\+([0-9A-Fa-f]+))?(?![^ \t\r\n])")


def column_of(word: str, line: str) -> int:
    """Returns the column of a word in a line, counted from 1."""
    found = re.search(rf"(?<!\S){re.escape(word)}(?!\S)", line)
    return (found.start() if found else len(line)) + 1


class Deck:
    """The lines of the deck, and for each line its file and its number in the block of the file, counted from 0."""

    def __init__(self, files: list[Input], options: argparse.Namespace) -> None:
        """Makes the lines of the deck."""
        self.files, self.memory = files, options.memory
        self.lines: list[bytes] = []
        self.places: list[tuple[Optional[Input], Optional[int]]] = []
        # For each label its addresses, each with the file of its source; and the errors of references to labels, and of keys.
        self.labels: dict[str, list[tuple[str, str]]] = {}
        self.unknown: list[str] = []
        if options.size is not None:
            self.add(None, None, f"size {options.size}".encode())
        self.front = len(self.lines)
        for number, file in enumerate(files):
            if file.kind == CALLS:
                self.add_calls(file)
                continue
            self.add(file, None, f"# {shown(os.path.basename(file.path))}"[:LONGEST_LINE // 4].encode())
            self.add(file, None, self.opener(file).encode())
            is_followed = file.kind == RAW and any(other.kind in (RAW, LISTING) for other in files[number + 1:])
            for at, line in enumerate(hexadecimal(with_its_end(file.data)) if is_followed else file.placed_lines()):
                self.add(file, at, line)
            self.add(file, None, b"end")
            page = file.placed.page if file.placed else ""
            for name, place in file.source_labels.items():
                self.labels.setdefault(name, []).append((file.path, f"{page}{place:03X}"))

    @staticmethod
    def opener(file: Input) -> str:
        """Returns the line that opens the block of a file. Notes another place than the usual one."""
        opener = {RAW: "load", LISTING: "program", IMAGE: "image", SOURCE: "asm"}[file.kind or ""]
        if file.kind not in (IMAGE, SOURCE) or file.placed is None:
            return opener
        page, bank, is_writable = file.placed
        if page != "8" or bank not in (None, 1):
            file.note(f"plugged at {f'bank {bank} of ' if bank else ''}page {page}")
        return f"{opener} {page}{f' b{bank}' if bank else ''}{' rw' if is_writable else ''}"

    def add_calls(self, file: Input) -> None:
        """Adds commands, with addresses in place of labels, and names of keys in place of texts and numbers. Lines inside blocks are not
        changed."""
        commands = {first for first, last in items_of([line + b"\n" for line in file.lines]) if first == last}
        for at, line in enumerate(file.lines):
            words = words_of(line)
            if at in commands and words[0] in OF_ADDRESSES and (words[0] in (b"call", b"list") or words[1:2] in ([b"w"], [b"p"])):
                self.check_colon(words, file, at)
                line = REFERENCE.sub(lambda found: self.address_of(found, file, at), line)
            elif at in commands and words == RUN:
                line = RUN_TO_END
            elif at in commands and words[0] == b"key":
                line = self.with_names(line, file, at)
            self.add(file, at, line)

    def check_colon(self, words: list[bytes], file: Input, at: int) -> None:
        """Adds an error if a label in a command has no colon before it."""
        word = next(iter(words[1 if words[0] in (b"call", b"list") else 2:]), b"").decode("latin-1")
        name = word.partition("+")[0].rstrip(":")
        if name in self.labels and not re.fullmatch("[0-9A-Fa-f]{4}", word):
            line = shown(file.lines[at].strip(BLANKS))
            self.unknown.append(f"{file.path}:{at + 1}: `{line}`: column {column_of(word, shown(file.lines[at]))}: a colon is before a label: "
                                f"write :{word.rstrip(':')}")

    def with_names(self, line: bytes, file: Input, at: int) -> bytes:
        """Returns a key line with the names of keys in place of texts and numbers."""
        try:
            name = next((name for name in keys_in(line) if name not in KEYS and name.isalpha()), None)
            why = "" if name is None else (f"column {column_of(name, shown(line))}: no key is named {name}: to press its letters, write it "
                                           f'in quotes, "{name}"')
        except NoKeys as error:
            why = str(error)
        if why:
            self.unknown.append(f"{file.path}:{at + 1}: `{shown(line.strip(BLANKS))}`: {why}")
        before = b"".join(other + b"\n" for other in self.lines)
        return lines_of(with_keys(before + line, self.memory))[-1]

    def address_of(self, found: re.Match[bytes], file: Input, at: int) -> bytes:
        """Returns the address for a label with an offset in words."""
        name, behind = found[1].decode(), int(found[2] or b"0", 16)
        places = self.labels.get(name, [])
        address = f"{int(places[0][1], 16) + behind:04X}" if places else ""
        why = None
        if not places:
            other = next((other for other in self.labels if other.lower() == name.lower()), None)
            why = f"no source before it has the label {name}" + (f"; {self.labels[other][0][0]} has {other}" if other else "")
        elif {other for _, other in places} != {places[0][1]}:
            having = " and ".join(f"at {own} in {path}" for path, own in places)
            why = f"found the label {name} {having}, expected one address: rename it in all but one"
        elif address[0] != places[0][1][0]:
            why = f"found the address {address}, expected one in page {places[0][1][0]}, that of the label {name}"
        if why:
            self.unknown.append(f"{file.path}:{at + 1}: `{shown(file.lines[at].strip(BLANKS))}`: {why}")
            return found[0]
        return address.encode()

    def add(self, file: Optional[Input], at: Optional[int], line: bytes) -> None:
        """Adds a line: its file, its number in the block of the file, and its text."""
        self.lines.append(line)
        self.places.append((file, at))

    def text(self) -> bytes:
        """Returns the deck as the bytes of a file."""
        return b"".join(line + b"\n" for line in self.lines)

    def tell_programs(self, files: list[Input], functions: Functions) -> None:
        """Notes the lines of programs that are not supported, and calls that lead nowhere."""
        items = zip(self.lines, self.places)
        pages = b"".join(line + b"\n" for line, (file, _) in items if file and file.kind in (IMAGE, SOURCE))
        names: set[str] = set().union(*(names_in(file.program) for file in files if not file.is_program(file.kind)))
        for file in files:
            if not file.program:
                continue
            found = judged(file.program, names, pages, functions)
            for text in found.notes:
                file.note(text)
            for program in parted_at_ends(file.program):
                texts = [text for _, text in program]
                for place, text in [line for line in program if line in found.lost]:
                    name, why = why_lost(text, texts, found.called, functions)
                    file.doubt(name, place, why)

    def hint(self, refusal: str, file: Optional[Input]) -> str:
        """Returns a hint for a refusal, by its number."""
        if refusal.startswith("! 16"):
            items = list(zip(self.lines, self.places))[self.front:]
            size = greatest_size(b"".join(line + b"\n" for line, (file, _) in items if file and file.kind != CALLS),
                                 self.memory)
            room = 7 * int(self.memory) - 3
            return (f": the programs are too long: there is room for {room:,} bytes with --size 0" if size is None else
                    f": the programs need more memory: use --size {size} or less")
        if refusal.startswith("! 14"):
            return f": {broken(file.data)}" if file and file.kind == RAW else ""
        if refusal.startswith("! 17"):
            return f": expected a size of at most {int(self.memory) - 1}"
        return ""

    def errors(self) -> Iterator[str]:
        """Yields what the bench refuses of the deck, by the lines of the files. Commands are not run."""
        yield from self.unknown
        asked = [at for at, (file, _) in enumerate(self.places) if not file or file.kind != CALLS]
        status, found = refused(b"".join(self.lines[at] + b"\n" for at in asked), self.memory)
        for first, _, refusal in found:
            begin = asked[first]
            file, _ = self.places[begin]
            numbered = OF_A_LINE.fullmatch(refusal)
            if numbered and file:
                at = begin + int(numbered[1])
                told = shown(self.lines[at].strip(b" \t"))
                yield f"{file.place(self.places[at][1] or 0)}: `{told}`: {refusal.rsplit(' ', 1)[0]}"
            else:
                yield f"{file.path if file else '--size'}: {refusal}{self.hint(refusal, file)}"
        if status > 1:
            yield ended(status, "when the deck was tried")


def members_in(paths: list[str], options: argparse.Namespace) -> tuple[list[Input], list[str]]:
    """Reads the files at some paths, and their parts. Returns them and the errors. Listings are read later."""
    files: list[Input] = []
    errors: list[str] = []
    # With --all each file is alone, with the same options.
    groups = options.groups if options.folder is None else options.groups * len(paths)
    for at, path in enumerate(paths):
        behind = paths[at + 1] if paths[at + 1:] else None
        if is_page_end(path) and at and not is_page_end(paths[at - 1]):
            continue
        if os.path.isdir(path):
            errors.append(f"{path}: found a folder, expected a file: import its files with --all {path}")
            continue
        try:
            for member in only(members_of(path, options.kind), options.only):
                files.append(Skipped(member) if member.kind in (DATA, OTHER) else
                             File(member, options, behind if is_page_end(behind) else None, paths[at - 1] if at else None))
                files[-1].group, groups[at] = groups[at], None
                errors += files[-1].errors
        except Failure as failure:
            if failure.status == NO_ANSWER:
                raise
            errors.append(str(failure))
    if options.only and files and options.folder is None and not any(file.container in WITH_NAMES for file in files):
        errors.append(f"--only {options.only[0]}: this names a file in a LIF image or a file .mod, and no FILE is one")
    return files, errors


def functions_for(files: list[Input], own: list[File], module: int) -> Functions:
    """Returns the functions that programs may use: those of all pages, and those of the module that is made from `own`. The tables of
    functions are in the first banks."""
    has_program = any(file.kind in (LISTING, RAW) for file in files)
    pages = [(file.path, plugged) for file in files if has_program and file.kind in (IMAGE, SOURCE)
             and (file.placed is None or file.placed.bank in (None, 1)) for plugged in [file.plugs()] if plugged]
    given = functions_of(pages)
    return Functions(read_tables(), given + names_given(own, Functions(read_tables(), given), module))


def read_files(paths: list[str], options: argparse.Namespace, is_told: bool) -> tuple[list[Input], Optional[Deck], list[str]]:
    """Reads files. Returns them, their deck, and the errors. If `is_told` is set, adds notes about the programs."""
    files, errors = members_in(paths, options)
    if not errors:
        place(files)
    own = [file for file in files if isinstance(file, File) and file.is_program(file.kind)]
    functions = functions_for(files, own, options.module)
    for file in files:
        if isinstance(file, File) and file.kind == LISTING and not file.errors:
            file.listing(functions)
            errors += file.errors
    placed = [file for file in files if not file.is_skipped]
    if files and not placed and not errors:
        errors += [f"{file.path}: found no program in it, expected one at least" for file in files[:1]]
    if own and not errors:
        doubt_comments(own)
        page = ModulePage(own, options.module)
        placed = [page if file is own[0] else file for file in placed if file is own[0] or file not in own]
        errors += page.errors
    deck = None if errors else Deck(placed, options)
    errors += deck.errors() if deck else []
    if is_told and deck and not errors:
        deck.tell_programs(files, functions)
        tell_pages(files)
    return files, deck, errors


def place(files: list[Input]) -> None:
    """Gives each image and source, and the first program of a module, its page and bank. Files .mod have the pages that they name; all
    others get the next ones."""
    places, module = Places(), next((file for file in files if file.is_program(file.kind)), None)
    images = [(file, file.of_mod) for file in files if file.kind == IMAGE and file.of_mod]
    groups = [file.group for file, _ in images if file.group]
    banked = next((file for file, _ in images if file.group and file.group.bank is not None), None)
    if banked:
        raise Failure(f"{banked.path}: --bank cannot be used: a .mod file says itself in which banks its pages are; remove --bank")
    first = next((group.page for group in groups if group.page), FIRST_PAGE)
    pages = dict(zip((file for file, _ in images), pages_of([image for _, image in images], first)))
    for file in files:
        places.begin(file.group)
        if file in pages and file.of_mod:
            file.placed = places.fixed(file.path, pages[file], file.of_mod, first)
        elif file.kind in (IMAGE, SOURCE) or file is module:
            file.placed = places.next(file.path)
