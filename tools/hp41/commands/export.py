"""Runs a deck and writes what it leaves in memory or in a page to a file.

usage: tools/export rom [--page P] [--bank N] DECK OUT..
       tools/export mod [--page P] [--title TEXT] DECK OUT
       tools/export source [--page P] [--bank N] [--end END] [--entry HHHH[=NAME]].. DECK OUT
       tools/export raw [--page P] [--label NAME] DECK OUT
       tools/export text [--page P] [--label NAME] [--numbers] [--symbols] [--for PROGRAM] DECK OUT
       tools/export lif|p41|hex|bars [--page P] [--label NAME] DECK OUT
                                                                (- is standard input or standard output)

DECK may also be a listing, the bytes of programs, a container, a source or an image with a name that tools/import knows: it is imported
first.

  rom       writes the image of a page, 8,192 bytes. With --bank, each further OUT gets the image of the next bank
  mod       writes a file .mod with all pages and banks that are plugged, or those of one page, each with its name: that in the
            comment directly before its block, or that of its page and bank
  source    writes the words of a page as a source for the assembler: the table of a module, its names, and labels for functions
            and jumps. Words of a module that none of its functions reaches are written as CON, with the instruction that they
            may be as a comment. Words 000 at the end are omitted

For rom, mod and source, DECK may be an image, .rom, or a file .mod. An image is plugged at page P, or at page 8.

  raw       writes the bytes of the programs in memory, each with its END. With --page, writes the programs of the module in
            that page, bank 1: those in its table, each from its first label on
  text      writes the lines of the same programs, each with its END

  lif       writes a LIF disk image with a file for each program
  p41       writes one program with the head of a LIF directory, and its checksum
  hex       writes the bytes as hexadecimal digits
  bars      writes the bytes as rows of bar code, in hexadecimal

  --page P        the page, 4 to F. For rom and source it may be omitted if only one page is plugged
  --bank N        the bank, 1 to 4; the default is 1
  --end END       ends the source at the first 32 words 000, and writes a description of the rest of the page to END, a file
                  named .page, which tools/import reads
  --entry HHHH    a further entry, with its address or its offset of three digits; =NAME after it names its label. May be
                  repeated. Words that neither these entries nor those of a table reach are written as CON
  --title TEXT    the title of the file .mod; the default is the name of OUT
  --label NAME    only the program with this label; it may be given several times
  --numbers       a line number before each line, from 01 in each program
  --symbols       the lines as archives print them, in UTF-8; docs/PROGRAMS.md lists the spellings
  --for PROGRAM   the lines as this program writes them: free42, hp41uc or v41; docs/OLD-PROGRAMS.md has the layouts

The comments in the deck's `program` blocks are written to texts, each at its line; other formats have no comments.

The deck must run without a refusal. Before OUT is written, the result is loaded again, and must give the same words or lines.
The new file replaces an older OUT only then; after an error, OUT is unchanged.

Status 0: OUT is written. 1: OUT is not written, and standard error says why. 2: the command line is wrong. 70: the bench gave no
answer."""
from __future__ import annotations

import argparse
import os
import re
import sys
from itertools import zip_longest
from typing import Callable, Iterable, Iterator, Optional

from ..commandlines import Parser
from ..comments import Commented, matching
from ..containers import LISTINGS, listing_of, packed
from ..containers import WRITERS as CONTAINERS
from ..decks import MAIN_START, MEMORY, OVERWRITTEN, Failure, block, hexadecimal, items_of, lines_of, words_of
from ..files import check_out, is_same, put
from ..functions import Functions
from ..listings import Listing
from ..misplaced import wrong_page
from ..mods import Image, images_in, read_mod, write_mod
from ..modules import Refusals, lines_of_bytes, lines_of_texts, programs_in
from ..pages import Page
from ..sources import Whole
from ..spellings import Tables, printed, read_tables
from ..states import IMAGE_SIZE, PAGES, PLUGGED, REPORT, State, images_of, lines_written, page_of

BANKS = 4
MAIN = range(0x1FF, 0x0BF, -1)

# The endings of the names of files, if they are not the kind itself.
ENDINGS = {"source": "asm", "text": "txt"}

# The END that archives have at the end of a program.
END = bytes.fromhex("C0000D")


# Pages.

def rom(state: State, options: argparse.Namespace, bank: int) -> bytes:
    """Returns the image of a bank of a page."""
    page, image = page_of(state, options.page, bank)
    change = change_of(image, block(f"image {page}".encode(), hexadecimal(image)) + f"show image {page}\n".encode())
    if change:
        raise Failure(f"{state.path}: page {page}: the image {change} when it is loaded again, so nothing is written: {REPORT}")
    return image


def change_of(image: bytes, deck: bytes) -> Optional[str]:
    """Returns the first word of an image that is another one when a deck has loaded and printed it again, or the refusal of the bench;
    None if all words are the same."""
    again, refused = lines_written(deck)
    if refused:
        return refused
    found = bytes.fromhex("".join(again))
    at = next((at for at in range(0, max(len(found), len(image)), 2) if found[at:at + 2] != image[at:at + 2]), None)
    if at is None:
        return None
    return f"has {found[at:at + 2].hex().upper() or 'nothing'} in place of {image[at:at + 2].hex().upper() or 'nothing'} at {at // 2:03X}"


def source(state: State, options: argparse.Namespace, bank: int) -> bytes:
    """Returns the words of a bank of a page as a source."""
    page, image = page_of(state, options.page, bank)
    words = [image[at] << 8 | image[at + 1] for at in range(0, IMAGE_SIZE, 2)]
    alone = block(f"image {page}".encode(), hexadecimal(image))
    found = Page(page, words,
                 lambda lists: lines_written(alone + "".join(f"list {first} {n}\n" for first, n in lists).encode())[0],
                 entries_of(options, page))
    text, end = (part.encode() for part in (found.with_end() if options.end else (found.text(), "")))
    whole = Whole(options.out, text)
    whole.describe(options.end, end.splitlines())
    change = change_of(image, block(f"asm {page}".encode(), whole.at_page(page)) + f"show image {page}\n".encode())
    if change:
        raise Failure(f"{state.path}: page {page}: the source {change} when it is assembled, so nothing is written: {REPORT}")
    state.end = end
    return text


def entries_of(options: argparse.Namespace, page: str) -> dict[int, Optional[str]]:
    """Returns the further entries of a page: for each place the name of its label, or None."""
    found = {}
    for at, (address, name) in enumerate(options.entries):
        if len(address) == 4 and address[0] != page:
            raise Failure(f"--entry {address}: not an address of page {page}, expected {page}000 to {page}FFF")
        place = int(address[-3:], 16)
        same = next((one for one in options.entries[:at] if int(one[0][-3:], 16) == place or name and one[1] == name), None)
        if same:
            raise Failure(f"--entry {'='.join(filter(None, (address, name)))}: --entry {'='.join(filter(None, same))} has this "
                          f"{'address' if int(same[0][-3:], 16) == place else 'name'} already")
        found[place] = name
    return found


def plugged_by(deck: bytes) -> dict[tuple[str, int], tuple[str, bool]]:
    """Returns, for each page and bank, the name in the comment before its block, and whether it is writable."""
    lines, found = lines_of(deck), {}
    for first, _ in items_of(lines):
        words = words_of(lines[first])
        if words[:1] in ([b"asm"], [b"words"], [b"image"]) and words[1:]:
            bank = next((int(word[1:]) for word in words[2:] if re.fullmatch(rb"b[1-4]", word)), 1)
            comment = lines[first - 1].decode("latin-1") if first else ""
            name = re.fullmatch(r"# *(?:.*[:/])?([^:/]+?)(?:\.(?:rom|asm|src|mod))?\s*", comment, re.I)
            found[words[1].decode().upper(), bank] = name[1] if name else "", b"rw" in words
    return found


def mod(state: State, options: argparse.Namespace, _: int) -> bytes:
    """Returns a file .mod with the pages and banks that are plugged."""
    pages, given = options.page or PAGES, plugged_by(state.deck)
    plugged = []
    for bank in range(1, BANKS + 1):
        for page, image in images_of(state, pages, bank).items():
            name, is_writable = given.get((page, bank), ("", False))
            words = [image[at] << 8 | image[at + 1] for at in range(0, IMAGE_SIZE, 2)]
            plugged.append((page, bank, words, name or f"page {page} bank {bank}", is_writable))
    if not plugged:
        raise Failure(f"{state.path}: nothing is plugged{f' at page {options.page}' if options.page else ''}: the deck must plug a module")
    images = images_in(sorted(plugged, key=lambda one: one[:2]))
    stem = os.path.splitext(os.path.basename(options.out))[0]
    data = write_mod(options.title if options.title is not None else "" if options.out == "-" else stem, images)
    for number, (wanted, found) in enumerate(zip_longest(images, read_mod(data)), 1):
        change = change_of_image(wanted, found)
        if change:
            raise Failure(f"{state.path}: image {number} of the file {change} when it is read again, so nothing is written: {REPORT}")
    return data


def change_of_image(wanted: Optional[Image], found: Optional[Image]) -> Optional[str]:
    """Returns how an image of a file .mod that is read again differs: its page and bank, or its first other word; None if it does not."""
    there, here = (f"page {one.position:X} bank {one.bank}" if one else "" for one in (found, wanted))
    if wanted is None or found is None:
        return f"is one too many ({there})" if found else f"is missing ({here})"
    if there != here:
        return f"is at {there} in place of {here}"
    pairs = enumerate(zip_longest(found.words, wanted.words))
    at, (one, other) = next(((at, pair) for at, pair in pairs if pair[0] != pair[1]), (0, (0, 0)))
    return None if one == other else f"has {one:03X} in place of {other:03X} at {at:03X} of {here}"


# Programs.

class Program:
    """A program: the texts of its lines without its END, its bytes with an END, and the comments that its deck has."""

    def __init__(self, texts: list[str], data: bytes) -> None:
        """Begins without comments."""
        self.texts, self.data, self.comments = texts, data, Commented(texts)

    def has_label(self, name: str) -> bool:
        """Returns whether the program has a label with this name."""
        return f'LBL "{name}"' in self.texts


def memory_of(state: State) -> bytes:
    """Returns the bytes of program memory."""
    first, *registers = state.shown("show ram 00d\n" + "".join(f"show ram {at:03x}\n" for at in MAIN))
    curtain, end = int(first[12:15], 16), int(first[15:18], 16)
    if not MAIN_START <= end < curtain <= MAIN_START + int(MEMORY):
        raise Failure(f"{state.path}: memory is lost: found {first[4:]} in register c (00D), which has {curtain:03X} as the address of R00 and "
                      f"{end:03X} as that of .END., expected {MAIN_START:03X} <= .END. < R00 <= {MAIN_START + int(MEMORY):03X}: {OVERWRITTEN}")
    return bytes.fromhex("".join(line[4:] for line in registers if end <= int(line[:3], 16) < curtain))


def programs_of(state: State) -> list[Program]:
    """Returns the programs in memory."""
    memory = memory_of(state)
    lines = [(int(line[:4]), line[5:]) for line in state.shown("show lines\n")]
    if not lines or lines[-1][1] != ".END." or lines[-1][0] + 3 != len(memory):
        last = f"`{lines[-1][1]}` at byte {lines[-1][0]}" if lines else "no line"
        raise Failure(f"{state.path}: program memory is damaged: microcode of the deck has overwritten it: found {last} as the last line, "
                      f"expected `.END.` at byte {len(memory) - 3}")
    programs: list[Program] = []
    texts: list[str] = []
    begin = place = 0
    for at, text in lines:
        if text == "END":
            programs.append(Program(texts, memory[begin:at + 3]))
            texts, begin = [], at + 3
        elif text == ".END." and texts:
            programs.append(Program(texts, memory[begin:place] + whole(state, memory[place:at], texts[-1]) + END))
        else:
            texts, place = texts + [text], at
    for program, found in zip(programs, matching([program.texts for program in programs], state.deck)):
        program.comments = found
    return programs


def whole(state: State, data: bytes, text: str) -> bytes:
    """Returns the bytes of the last line of memory without the null bytes after it: the fewest bytes that are this line if another one
    follows."""
    nulls, found = len(data) - len(data.rstrip(b"\0")), ""
    for length in range(len(data) - nulls, len(data) + 1):
        deck = b"size 0\n" + block(b"load", hexadecimal(data[:length] + b"\x85")) + b"show lines\n"
        printed_lines, refused = lines_written(deck)
        lines = [line[5:] for line in printed_lines[:-1]]
        if not refused and lines == [text, "RTN"]:
            return data[:length]
        found = refused or f"gives {' and '.join(f'`{line}`' for line in lines[:-1]) or 'no line'}"
    raise Failure(f"{state.path}: the last line `{text}` {found} when it is loaded again, so nothing is written: {REPORT}")


def chosen(state: State, options: argparse.Namespace) -> list[Program]:
    """Returns the programs to export."""
    if options.page is None:
        programs, where = programs_of(state), "in memory"
    else:
        page, image = page_of(state, options.page, 1)
        try:
            programs = [Program([text for text, _ in lines[:-1]], data) for lines, data in programs_in(page, image)]
        except Failure as why:
            raise Failure(f"{state.path}: {why}", why.status) from why
        where = f"at page {page}"
    if not programs:
        raise Failure(f"{state.path}: found no program {where}, expected one: load it in the deck, with a block `program` or `load`")
    if options.label is None:
        return programs
    found = [(name, [program for program in programs if program.has_label(name)]) for name in options.label]
    names = ", ".join(dict.fromkeys(text[5:-1] for program in programs for text in program.texts if text.startswith('LBL "')))
    wrong = [f'--label: {len(own)} programs have LBL "{name}", expected one' if own else
             f'--label: no program has LBL "{name}"; found {names or "no labels with names"}' for name, own in found if len(own) != 1]
    if wrong:
        raise Failure("\n".join(wrong))
    return [program for program in programs if any(own[0] is program for _, own in found)]


def texts_of(programs: list[Program]) -> list[str]:
    """Returns the lines of programs, with an END between two programs."""
    texts = []
    for program in programs:
        texts += program.texts + ["END"]
    return texts[:-1]


def without_comments(programs: list[Program], what: str) -> None:
    """Reports that the comments of programs are not written."""
    count = sum(program.comments.count() for program in programs)
    if count:
        print(f"export: {count} comment{'s' if count > 1 else ''} of the deck {'are' if count > 1 else 'is'} not written: {what} has none",
              file=sys.stderr)


def raw(state: State, options: argparse.Namespace, _: int) -> bytes:
    """Returns the bytes of programs."""
    programs = chosen(state, options)
    without_comments(programs, options.kind)
    data = b"".join(program.data for program in programs)
    refusals: Refusals = []
    again = lines_of_bytes(data, refusals)
    if again is None or [text for text, _ in again] != texts_of(programs) + ["END"]:
        raise read_as_others(state, "bytes", texts_of(programs) + ["END"], again, refusals)
    if not re.search(rb"[\xc0-\xcd].[\x00-\xef]\Z", data, re.S):
        raise Failure(f"{state.path}: the bytes end with {data[-3:].hex(' ').upper()}, expected an END such as C0 00 0D, so nothing is written: "
                      f"{REPORT}")
    return data


def container(state: State, options: argparse.Namespace, bank: int) -> bytes:
    """Returns the programs in a container."""
    raw(state, options, bank)
    return packed(options.kind, [program.data for program in chosen(state, options)])


def names_of(state: State, tables: Tables, lines: list[str]) -> dict[str, str]:
    """Returns the names of the lines that are functions of plugged modules or of tools/functions.txt, if the names are read as the same
    lines again."""
    called = [line for line in dict.fromkeys(lines) if line.startswith("XROM ")]
    if not called:
        return {}
    functions = known_functions(state, tables)
    known = [line for line in called if line in functions.names]
    again = Listing([functions.names[line] for line in known], has_numbers=False, functions=functions)
    return {line: functions.names[line] for line, text in zip(known, again.texts) if text == line}


def read_as_others(state: State, what: str, lines: list[str], again: Optional[Iterable[tuple[str, bytes]]],
                   refusals: Iterable[tuple[int, str]] = ()) -> Failure:
    """Returns the error of a text or of bytes whose lines are read back as other ones, or are refused. It names the first of them."""
    if again is None:
        why = "".join(f" ({refusal} at {f'byte {at}' if what == 'bytes' else f'line {at + 1}'})" for at, refusal in refusals)
        return Failure(f"{state.path}: the bench cannot read the {what} back as program lines{why}, so nothing is written: {REPORT}")
    texts = [text for text, _ in again]
    number, (line, other) = next((at, pair) for at, pair in enumerate(zip_longest(lines, texts), 1) if pair[0] != pair[1])
    return Failure(f"{state.path}: line {number} of the {what}, {f'`{line}`' if line else 'no line'}, is read back as "
                   f"{f'`{other}`' if other else 'no line'}, so nothing is written: {REPORT}")


def text(state: State, options: argparse.Namespace, _: int) -> bytes:
    """Returns the lines of programs as a text."""
    programs = chosen(state, options)
    lines = texts_of(programs)
    refusals: Refusals = []
    read = lines_of_texts(lines, refusals)
    if read is None or [text for text, _ in read] != lines:
        raise read_as_others(state, "text", lines, read, refusals)
    if options.program:
        without_comments(programs, f"a listing of {options.program}")
        return listing_of(options.program, [program.texts + ["END"] for program in programs])
    tables = read_tables() if options.symbols else None
    names = names_of(state, tables, lines) if tables else {}
    written = [line for program in programs for line in written_lines(program, options, lambda line: printed(tables, line, names)
                                                                     if tables else line)]
    if any(program.comments.count() for program in programs):
        again = [text for text in Listing(written, functions=known_functions(state, tables)).texts if text and not text.startswith("#")]
        if again != lines + ["END"]:
            raise read_as_others(state, "text", lines + ["END"], [(text, b"") for text in again])
    return "".join(f"{line}\n" for line in written).encode()


def known_functions(state: State, tables: Optional[Tables]) -> Functions:
    """Returns the functions by which names in a text are read."""
    tables = tables or read_tables()
    return Functions(tables, [(line, "a page") for line in state.shown("show functions\n")])


def written_lines(program: Program, options: argparse.Namespace, spelled: Callable[[str], str]) -> Iterator[str]:
    """Yields the lines of a program as a text, with its comments. `spelled` returns the spelling of a line."""
    width, comments = len(f"{len(program.texts) + 1:02}"), program.comments
    for at, line in enumerate(program.texts + ["END"]):
        yield from comments.above.get(at, [])
        number = f"{at + 1:0{width}} " if options.numbers else ""
        beside = f" {comments.beside[at]}" if at in comments.beside else ""
        yield f"{number}{spelled(line)}{beside}"
    yield from comments.above.get(len(program.texts) + 1, [])


WRITERS = {"rom": rom, "mod": mod, "source": source, "raw": raw, "text": text, **dict.fromkeys(CONTAINERS, container)}


def parser_of() -> argparse.ArgumentParser:
    """Returns the parser of the command line."""
    parser = Parser(prog="export", add_help=False, allow_abbrev=False,
                    usage="tools/export rom|mod|raw|text|source|lif|p41|hex|bars [OPTION..] DECK OUT..; see --help")
    parser.add_argument("kind", choices=WRITERS)
    parser.add_argument("deck", metavar="DECK")
    parser.add_argument("outs", metavar="OUT", nargs="*")
    parser.add_argument("--page", type=lambda page: page.upper())
    parser.add_argument("--bank", type=int)
    parser.add_argument("--end")
    parser.add_argument("--entry", dest="entries", action="append", default=[], metavar="HHHH[=NAME]")
    parser.add_argument("--title")
    parser.add_argument("--label", action="append", metavar="NAME")
    parser.add_argument("--for", dest="program", choices=LISTINGS)
    parser.add_argument("--numbers", action="store_true")
    parser.add_argument("--symbols", action="store_true")
    return parser


def check_kind(parser: argparse.ArgumentParser, options: argparse.Namespace) -> None:
    """Refuses options that the kind of output does not have."""
    for name, kinds in (("page", tuple(WRITERS)), ("bank", ("rom", "source")), ("end", ("source",)), ("entry", ("source",)),
                        ("title", ("mod",)), ("label", ("raw", "text", *CONTAINERS)), ("numbers", ("text",)), ("symbols", ("text",)),
                        ("for", ("text",))):
        if getattr(options, {"for": "program", "entry": "entries"}.get(name, name)) not in (None, False, []) and options.kind not in kinds:
            parser.error(f"--{name} cannot be used with {options.kind}: it is for {', '.join(kinds)}")


def read_options(words: list[str]) -> argparse.Namespace:
    """Parses the command line."""
    parser = parser_of()
    options = parser.parse_args(words)
    if not options.outs:
        parser.error(f"found {options.deck} alone, expected DECK and OUT, for example {options.deck} "
                     f"{os.path.splitext(options.deck)[0]}.{ENDINGS.get(options.kind, options.kind)}; - is standard output")
    if options.page is not None and (len(options.page) != 1 or options.page not in PAGES):
        parser.error(wrong_page(options.page))
    if options.bank is not None and not 1 <= options.bank <= BANKS:
        parser.error(f"--bank {options.bank}: expected a bank from 1 to 4")
    check_kind(parser, options)
    if options.end is not None and not options.end.lower().endswith(".page"):
        parser.error(f"--end '{options.end}': expected a file name that ends in .page")
    if options.program is not None and (options.numbers or options.symbols):
        given = "numbers" if options.numbers else "symbols"
        parser.error(f"--for {options.program} cannot be used with --{given}: the layout of its listings fixes this: give only one of the "
                     "two options")
    if options.outs[1:] and (options.kind != "rom" or options.bank is None):
        parser.error(f"found {len(options.outs)} files OUT, expected one: several are for rom with --bank")
    if os.path.splitext(options.deck)[1].lower() in PLUGGED and options.kind not in ("rom", "mod", "source"):
        parser.error(f"{options.deck}: found a module, expected programs for {options.kind}: make a deck of it with tools/import, and give "
                     "that deck with --page")
    options.entries = [entry_in(parser, text) for text in options.entries]
    options.out, options.bank = options.outs[0], options.bank or 1
    banks = BANKS + 1 - options.bank
    if len(options.outs) > banks:
        parser.error(f"found {len(options.outs)} files OUT, but from bank {options.bank} on there "
                     f"{'is 1 bank' if banks == 1 else f'are {banks} banks'}")
    return options


def entry_in(parser: argparse.ArgumentParser, text: str) -> tuple[str, Optional[str]]:
    """Returns the address and the name in the value of --entry."""
    found = re.fullmatch("([4-9A-F]?[0-9A-F]{3})(?:=([A-Za-z][0-9A-Za-z_]{0,11}))?", text.upper() if "=" not in text else
                         text.split("=")[0].upper() + "=" + text.split("=", 1)[1])
    if not found:
        parser.error(f"--entry {text}: expected an address such as 9008 or an offset such as 008, and a label after =: 9008=SUM10")
    return found[1], found[2]


def main(words: list[str]) -> int:
    """Runs the deck, and writes the files. Returns the status."""
    if words in (["-h"], ["--help"]):
        print(__doc__.strip())
        return 0
    options = read_options(words)
    for out in options.outs:
        check_out(out, [("the deck", options.deck)])
    if options.end:
        check_out(options.end, [("the deck", options.deck), ("OUT", options.out)])
    for at, out in enumerate(options.outs):
        if out != "-" and any(is_same(out, other) for other in options.outs[:at]):
            raise Failure(f"{out}: given for two banks: choose a file for each")
    state = State(options.deck, options.page)
    found = [WRITERS[options.kind](state, options, options.bank + at) for at in range(len(options.outs))]
    for data, out in zip(found, options.outs):
        put(data, out)
    if options.end:
        put(state.end, options.end)
    return 0
