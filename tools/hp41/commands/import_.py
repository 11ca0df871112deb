"""Makes a deck that loads programs and plugs modules from files of archives.

usage: tools/import [--page P] [--bank N] [--rw] [--swap] [--size N] [--memory N] [--as KIND] [--decimal] [--quiet] [--out OUT]
                    [--module N] [--accept NAME] FILE..
       tools/import [OPTION..] [[--page P] [--bank N] [--rw] FILE..]..
       tools/import --source [--decimal] [--quiet] [--out OUT] FILE     (- is standard input)
       tools/import --module N --source [--quiet] [--out OUT] FILE..
       tools/import --only NAME [OPTION..] FILE..
       tools/import --all FOLDER [--into OUT] [--accept NAME] [OPTION..]

The deck is written to standard output. It has a block for each FILE:

    an image of a module, 8,192 bytes, .rom       image P
    a source for the assembler, .asm or .src      asm P
    bytes of a program, .raw                      load
    a listing of a program, .txt .lst .lines .prg program
    commands of a deck, .calls                    copied, with addresses in place of labels
    the end of a page, .page                      lines of the asm block of the source before it: FILE.asm FILE.page
    a container: .lif .dat .p41 .hex .bars        load or program, a block for each program in it
    a module with its pages, .mod                 image P, a block for each page and bank
    a listing of Free42, with its head            program

If a FILE has another name, its content decides. --as KIND gives the kind of all files: image, source, raw, listing or calls;
lif, p41, hex, bars or mod for containers; free42, hp41uc or v41 for the listings of these programs. docs/OLD-PROGRAMS.md has the layouts.

  --page P    the page of the image or source after it, 4 to F; the default is 8. Each further one gets the next page
  --bank N    the images and sources after it are banks of one page: the first one is bank N, 1 to 4, each further one the next bank
  --rw        makes the pages after it writable for microcode, up to the next --page or --bank
  --swap      swaps the bytes of an image whose words have the low byte first; without --swap such an image is an error
  --size N    begins the deck with `size N`. Programs have more room if N is below 100
  --memory N  makes the deck for N registers of memory, and tries it with them: 64, 128, 192, 256 or 320
  --module N  makes a page from the programs of the files, bytes and listings: module N, 1 to 31. Its functions are the labels
              with names. It gets the page of the first of these files; a .page file after the last one describes its end
  --only NAME only the file of this name in LIF images, or the page in .mod; it may be given several times
  --accept NAME
              accepts the doubts of this name, which are then notes; it may be given several times
  --decimal   reads numbers after CON, LDI and short jumps of sources as decimal, except those with letters, 0x, $ or H
  --source    writes the source instead of a deck, in the dialect of this bench; with --module the source of the page
  --quiet     prints errors only
  --out OUT   writes the deck to this file. After an error, an older OUT is unchanged
  --all       imports each file of FOLDER. Standard output has a line for each file that is in with doubts, with the names of
              the doubts, and for each that is not in, with the reason. A table at the end counts the files of each state, and
              also files that hold no program, links that lead nowhere, and folders, which are not read
  --into OUT  writes the deck of each imported file to OUT/FILE.deck, and replaces older decks

--page, --bank and --rw may be repeated between files: --page 8 A.asm --bank 2 B.asm --page 9 C.rom. After the last file they
apply to all files. The other options apply to all files wherever they are.

In commands, a label of an earlier source, or of the page of --module, may stand for an address: `call :FIVE`, `list :TABLE 8`,
`break w :LOOP+1`, `break p :SQ+6`, and so for `unbreak`; the number after + is hexadecimal. Texts and numbers may stand for keys:
`key XEQ "QUAD" 1.5`. `run` without a count is `run 9999999`. The tool does not run these commands.

A description of the end of a page has lines of a source, which may use the labels of the source before it, and these lines:

    at HHH       the next line begins at this place of the page, for example FF4. Words up to it are filled
    fill HHH     the word for filling up to FF3. Without it, and from FF4 on, the word is 000
    id "MA1A"    four characters at FFB to FFE, the last one first
    checksum     the checksum of the other words of the page, at FFF

Standard error reports each changed line of a listing, or of a source in another dialect, as FILE:LINE: old -> new. For each file
it reports the lines that are not supported, and labels that no keys can call. docs/PROGRAMS.md and docs/ASSEMBLER.md list the
spellings. The bench runs the deck to check that it accepts it.

A file is in, in with doubts, or not in. A doubt is a line of standard error, FILE:LINE:COLUMN: doubt: .. [NAME], for example about
a line number that is missing, or a call that leads nowhere. docs/OLD-PROGRAMS.md lists the names.

Status 0: the deck is written, or all files are in, perhaps with doubts. 1: an error; standard error lists all lines that cannot be
read, and for lines of a source the usual cause. 2: the command line is wrong. 70: the bench gave no answer."""
import argparse
import os
import re
import sys
from concurrent.futures import ThreadPoolExecutor
from typing import Optional

from ..commandlines import Parser
from ..containers import KINDS as CONTAINERS
from ..decks import MEMORIES, MEMORY, Failure
from ..doubts import DOUBTFUL, IN, NOT_IN, known_names, parted, summed
from ..files import check_out, make_folder, put
from ..importing import Deck, read_files
from ..inputs import BY_NAME, CALLS, DECK, KINDS, LISTING, SOURCE, Input, is_deck, is_page_end
from ..modules import LAST_NUMBER
from ..placing import group_of, split
from ..programs import LEFT_OUT

# What a folder has besides the three states, and what counts files that are in.
NO_PROGRAM, HIDDEN, LINKS, FOLDERS = "no program", "names that begin with a point", "links that lead nowhere", "folders, not read"
UNSUPPORTED = "of those in, with unsupported lines"
# Parts of errors by which a file of a folder counts as one that holds no program.
OF_NO_KIND = ("expected a text in UTF-8 or an image", "nor as a source")

# Options with a value.
VALUED = ("--page", "--bank", "--size", "--memory", "--as", "--only", "--accept", "--module", "--out", "--all", "--into")


def parser_of() -> argparse.ArgumentParser:
    """Returns the parser of the command line."""
    parser = Parser(prog="import", add_help=False, usage="tools/import [--page P] [--bank N] [--rw] [--swap] "
                    "[--size N] [--memory N] [--as KIND] [--decimal] [--module N] [--only NAME] "
                    "[--accept NAME] [--source] [--quiet] [--out OUT] "
                    "FILE.., or tools/import --all FOLDER [--into OUT] [OPTION..]",
                    allow_abbrev=False)
    parser.add_argument("--page", action="append")
    parser.add_argument("--bank", action="append")
    parser.add_argument("--rw", action="store_true")
    parser.add_argument("--swap", action="store_true")
    parser.add_argument("--size", type=int)
    parser.add_argument("--memory", choices=MEMORIES, default=MEMORY)
    parser.add_argument("--as", dest="kind", choices=(*KINDS, *CONTAINERS))
    parser.add_argument("--only", action="append", metavar="NAME")
    parser.add_argument("--accept", action="append", metavar="NAME", default=[])
    parser.add_argument("--decimal", action="store_true")
    parser.add_argument("--module", type=int)
    parser.add_argument("--source", action="store_true")
    parser.add_argument("--quiet", action="store_true")
    parser.add_argument("--out", default="-")
    parser.add_argument("--all", dest="folder", metavar="FOLDER")
    parser.add_argument("--into", metavar="OUT")
    parser.add_argument("files", nargs="*", metavar="FILE")
    return parser


def read_options(words: list[str]) -> argparse.Namespace:
    """Parses the command line."""
    parser = parser_of()
    given, files, before = split(words, VALUED)
    options = parser.parse_args([*given, *files])
    options.groups = [group_of(one, parser) for one in before]
    if (options.folder is None) == (not options.files):
        parser.error(f"found {'both --all FOLDER and FILE' if options.files else 'neither --all FOLDER nor FILE'}, expected one of them")
    if options.into is not None and options.folder is None:
        parser.error("--into can only be used with --all FOLDER")
    if options.out != "-" and options.folder is not None:
        parser.error("--out cannot be used with --all FOLDER: use --into OUT")
    if options.size is not None and not 0 <= options.size < int(options.memory):
        parser.error(f"--size {options.size}: expected a size from 0 to {int(options.memory) - 1}")
    if options.source and options.module is None and len(options.files) != 1:
        parser.error(f"--source: found {len(options.files)} files, expected one")
    if options.module is not None and not 1 <= options.module <= LAST_NUMBER:
        parser.error(f"--module {options.module}: expected a module number from 1 to {LAST_NUMBER}")
    if options.module is not None and options.folder is not None:
        parser.error("--module cannot be used with --all FOLDER, which imports each file alone: give the files of the page")
    unknown = [name for name in options.accept if name not in known_names()]
    if unknown:
        parser.error(f"--accept {unknown[0]}: no doubt has this name, expected one of {', '.join(known_names())}")
    if options.files.count("-") > 1:
        parser.error(f"found - {options.files.count('-')} times: standard input can be read only once")
    return options


def state_of(files: list[Input], errors: list[str], accepted: list[str]) -> str:
    """Returns the state of files that were read together."""
    if errors:
        return NOT_IN
    return DOUBTFUL if any(parted(file.all_doubts(), accepted)[0] for file in files) else IN


def told_of(file: Input, accepted: list[str], has_errors: bool) -> list[str]:
    """Returns the notes and the doubts of a file, and its state if it is in with doubts."""
    doubts, others = parted(file.all_doubts(), accepted)
    found = [*file.notes, *(doubt.noted(file.path) for doubt in others), *(doubt.told(file.path) for doubt in doubts)]
    if doubts and not has_errors:
        found.append(f"{file.path}: {DOUBTFUL}: {summed(doubts)}; --accept NAME accepts the doubts of a name")
    return found


def tell(files: list[Input], errors: list[str], options: argparse.Namespace) -> None:
    """Prints notes, doubts and errors."""
    notes = [] if options.quiet else [note for file in files for note in told_of(file, options.accept, bool(errors))]
    for text in [*notes, *errors]:
        print(*(f"import: {line}" for line in text.splitlines()), sep="\n", file=sys.stderr)


# Folders.

def sorted_names(options: argparse.Namespace) -> tuple[list[str], dict[str, int]]:
    """Returns what is in the folder: the paths of files that may be imported, and the counts of everything else."""
    counts = dict.fromkeys((NO_PROGRAM, HIDDEN, LINKS, FOLDERS), 0)
    paths: list[str] = []
    if os.path.isfile(options.folder):
        raise Failure(f"--all {options.folder}: found a file, expected a folder: give a file without --all")
    try:
        names = sorted(os.listdir(options.folder))
    except OSError as error:
        raise Failure(f"--all {options.folder}: cannot be read: {error.strerror}; expected a folder") from error
    if options.into is not None:
        make_folder(options.into, "--into")
    for path in (os.path.join(options.folder, name) for name in names):
        is_other = BY_NAME.get(os.path.splitext(path)[1].lower()) == CALLS or is_page_end(path) or is_deck(path)
        kind = (HIDDEN if os.path.basename(path).startswith(".") else LINKS if os.path.islink(path) and not os.path.exists(path) else
                FOLDERS if os.path.isdir(path) else NO_PROGRAM if is_other or not os.path.isfile(path) else None)
        if kind is None or kind == LINKS:
            paths.append(path)
        if kind is not None:
            counts[kind] += 1
    return paths, counts


def import_all(options: argparse.Namespace) -> int:
    """Imports each file of a folder: prints a line for each file that is in with doubts or not in, a table of the counts, and writes the
    decks of the files that are in. Returns the status."""
    paths, others = sorted_names(options)
    width = max((len(os.path.basename(path)) for path in paths), default=0)
    counts, unsupported = dict.fromkeys((IN, DOUBTFUL, NOT_IN), 0), 0
    with ThreadPoolExecutor(len(os.sched_getaffinity(0))) as pool:
        for path, (files, deck, errors) in zip(paths, pool.map(lambda path: read_one(path, options), paths)):
            state = state_of(files, errors, options.accept)
            if os.path.islink(path) and not os.path.exists(path):
                state = LINKS
            elif state == NOT_IN and holds_no_program(files, errors):
                state, errors = NO_PROGRAM, []
                others[NO_PROGRAM] += 1
            tell([] if state == NO_PROGRAM else files, errors, options)
            if state in counts:
                counts[state] += 1
            if state in (IN, DOUBTFUL):
                unsupported += any(LEFT_OUT in note for file in files for note in file.notes)
                write_deck(deck, path, options)
            if state not in (IN, NO_PROGRAM):
                kind = files[0].container or files[0].kind if files else None
                doubts = [doubt for file in files for doubt in parted(file.all_doubts(), options.accept)[0]]
                found = f"{DOUBTFUL}: {summed(doubts)}" if state == DOUBTFUL else f"{NOT_IN}: {refused_in(path, errors)}"
                print(f"{os.path.basename(path):<{width}}  {kind or '-':<7}  {found}", flush=True)
    print_table({**counts, **others}, unsupported)
    return int(counts[NOT_IN] + others[LINKS] > 0)


def read_one(path: str, options: argparse.Namespace) -> tuple[list[Input], Optional[Deck], list[str]]:
    """Reads a file of a folder alone. Returns what read_files returns."""
    if os.path.islink(path) and not os.path.exists(path):
        return [], None, [f"{path}: this link leads nowhere: found {os.readlink(path)}, expected a file"]
    return read_files([path], options, True)


def holds_no_program(files: list[Input], errors: list[str]) -> bool:
    """Returns whether a file that is not in holds no program: its content is of no kind that is read, less than half of its lines can be
    read, or it is a container without programs."""
    file = files[0] if files else None
    if file is None:
        return False
    if all(one.is_skipped for one in files):
        return True
    if file.kind is None:
        return any(text in error for error in errors for text in OF_NO_KIND)
    return file.kind == LISTING and file.container is None and file.read is not None and file.read.is_foreign()


def print_table(counts: dict[str, int], unsupported: int) -> None:
    """Prints the table at the end: the counts of the three states, and of everything else if there is any."""
    rows = {name: count for name, count in counts.items() if count or name in (IN, DOUBTFUL, NOT_IN)}
    wide = max(map(len, [*rows, UNSUPPORTED])) if unsupported else max(map(len, rows))
    for name, count in rows.items():
        print(f"{name:<{wide}}  {count:>6,}")
    if unsupported:
        print(f"{UNSUPPORTED:<{wide}}  {unsupported:>6,}")


def refused_in(path: str, errors: list[str]) -> str:
    """Returns the first error of a file, and how many more of its lines have errors."""
    lines = [error for error in errors if re.match(rf"{re.escape(path)}:[0-9]+: ", error)]
    found = re.sub(rf"\A{re.escape(path)}: ?", "", errors[0].split("\n")[0])
    return f"line {found}{f' (and {len(lines) - 1} more)' if lines[1:] else ''}" if lines else found


def write_deck(deck: Optional[Deck], path: str, options: argparse.Namespace) -> None:
    """Writes the deck of a file, if --into is given."""
    if options.into is None or deck is None:
        return
    put(deck.text(), os.path.join(options.into, f"{os.path.basename(path)}{DECK}"))


def main(words: list[str]) -> int:
    """Imports files, or a folder of them. Returns the status."""
    if words in (["-h"], ["--help"]):
        print(__doc__.strip())
        return 0
    options = read_options(words)
    if options.folder is not None:
        return import_all(options)
    check_out(options.out, [("a file that is read", path) for path in options.files])
    files, deck, errors = read_files(options.files, options, not options.quiet)
    tell(files, errors, options)
    if errors or deck is None:
        return 1
    if options.module is not None and not any(file.is_program(file.kind) for file in files):
        raise Failure(f"--module {options.module}: found {files[0].path}, which is no program: expected at least one with bytes (.raw) or "
                      "a listing (.txt)")
    if options.source and (deck.files[1:] or deck.files[0].kind != SOURCE):
        other = next((file for file in files if not file.is_program(file.kind)), files[0])
        raise Failure(f"{other.path}: found a file of kind {other.kind}, expected a program: with --module and --source every FILE must be one"
                      if options.module is not None else
                      f"{options.files[0]}: found a file of kind {files[0].kind}, expected a source for --source")
    lines = deck.files[0].placed_lines() if options.source else deck.lines
    put(b"".join(line + b"\n" for line in lines), options.out)
    return 0
