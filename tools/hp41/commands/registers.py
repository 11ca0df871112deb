"""Prints the registers that a deck leaves, or makes a deck that stores registers.

usage: tools/registers [--memory N] [--all] DECK
       tools/registers [--memory N] --deck [--page P] FILE     (- is standard input)

The first form runs DECK and prints the number of data registers, and after it all data registers and registers of the stack,
T Z Y X L, that are not zero:
    size 100
    R05 -1.5E-30
    R06 "AB"
    X 12
A value is a number, a text in quotes, or `=` and 14 digits if it is neither. --all prints registers that are zero too.

The second form, --deck, reads such lines from FILE and prints a deck. The deck sets the size if FILE has one, and stores each
register by a function in microcode, which it plugs at page P and unplugs again. P is 4 to F; the default is F. After the deck,
stack lift is on, and the entry of a number or text has ended. Nothing else changes: not the stack, ALPHA, the flags, the
position, or a register that FILE does not name. `size` must be the first line; without it, the size is 100. Empty lines and lines
that begin with # are ignored.

  --memory N   runs the deck with N registers of memory: 64, 128, 192, 256 or 320. With 64 the size is 17 if FILE has none

Status 0: the registers or the deck are printed. 1: DECK was refused, or a line of FILE is wrong; standard error lists them. 2: the
command line is wrong. 70: the bench gave no answer."""
import argparse
import re
from decimal import Decimal, InvalidOperation
from typing import Iterator, NamedTuple, Optional

from ..commandlines import Parser
from ..decks import (MAIN_START, MEMORIES, MEMORY, OVERWRITTEN, Failure, answered, block, bytes_of, end_with_reader, ended, lines_of,
                     refused, run, shown)
from ..misplaced import wrong_page
from ..typed import is_other_number, why_no_number
from ..values import ZERO, text_of

PAGES = "456789ABCDEF"
STACK = "TZYXL"

# How many registers fit into one page of 4,096 words: a register needs at most 33 words.
IN_A_PAGE = 120

SIZE = re.compile(r"size ([0-9]{1,3})")
LINE = re.compile(r'(R[0-9]{2,3}|[TZYXL]) +("(?:[^"\\]|\\[0-9A-F]{2})*"|=[0-9A-Fa-f]{14}|-?[0-9.]+(?:E-?[0-9]{1,2})?)')


EXPECTED = 'expected a register and its value, such as R05 12 or X "AB"'


# Printing registers.

def commands(curtain: int, top: int) -> bytes:
    """Returns commands that show the data registers from the curtain on, and the stack."""
    addresses = [*range(curtain, top), *range(len(STACK))]
    return "".join(f"show ram {at:03x}\n" for at in addresses).encode()


def registers(path: str, memory: str) -> tuple[int, list[tuple[str, str]]]:
    """Returns the number of data registers that a deck leaves, and all registers, each as a name and 14 digits."""
    top = MAIN_START + int(memory)
    deck = bytes_of(path)
    status, found = refused(deck, memory)
    if status > 1:
        raise Failure(f"{path}: {ended(status, 'before the end of the deck')}")
    if found:
        lines = lines_of(deck)
        raise Failure("\n".join(f"{path}:{first + 1}: `{shown(lines[first].strip())}`: {refusal}" for first, _, refusal in found))
    deck = deck if deck.endswith(b"\n") or not deck else deck + b"\n"
    own = run(deck, memory)[1].count(b"\n")

    def more(words: bytes) -> list[str]:
        """Returns the lines that commands after the deck print."""
        return run(deck + words, memory)[1].decode().splitlines()[own:]

    curtain = int(more(b"show ram 00d\n")[0][12:15], 16)
    if not MAIN_START < curtain <= top:
        raise Failure(f"{path}: memory is lost: found {curtain:03X} as the address of R00 in register c (00D), expected "
                      f"{MAIN_START + 1:03X} to {top:03X}: {OVERWRITTEN}")
    size = top - curtain
    names = [f"R{number:02}" for number in range(size)] + list(STACK)
    return size, list(zip(names, (line[4:] for line in more(commands(curtain, top)))))


def out(options: argparse.Namespace) -> None:
    """Prints the registers that a deck leaves."""
    size, found = registers(options.file, options.memory)
    lines = [f"size {size}"] + [f"{name} {text_of(digits)}" for name, digits in found if options.all or digits != ZERO]
    end_with_reader()
    print(*lines, sep="\n")


# Storing registers.

def start_size(memory: str) -> int:
    """Returns the number of data registers at the start."""
    return 17 if int(memory) < 101 else 100


class Named(NamedTuple):
    """A register in a file: the number of its line, its name and its value."""
    line: int
    name: str
    value: str


# The number of a line, and its error.
Error = tuple[int, str]


def values_in(path: str, memory: str) -> tuple[Optional[int], list[Named], list[Error]]:
    """Returns the size in a file, or None; its registers: the line, the name and the value of each; and the errors by their lines."""
    size: Optional[int] = None
    found: list[Named] = []
    errors: list[Error] = []
    for number, line in enumerate(bytes_of(path).decode("utf-8", errors="replace").splitlines(), 1):
        line = line.strip()
        sized, named = SIZE.fullmatch(line), LINE.fullmatch(line)
        if sized and size is None and not found and int(sized[1]) < int(memory):
            size = int(sized[1])
        elif named:
            found.append(Named(number, named[1], named[2]))
        elif line and not line.startswith("#"):
            errors.append((number, f"`{shown(line)}`: {why_no_value(line, size, found, memory)}"))
    count = start_size(memory) if size is None else size
    errors += [(number, f"`{name}`: no such register with size {count}: expected a number below {count}, or a line `size N` before all "
                "registers") for number, name, _ in found if name[0] == "R" and int(name[1:]) >= count]
    return size, found, errors


def why_no_value(line: str, size: Optional[int], found: list[Named], memory: str) -> str:
    """Returns why a line of a file is neither a size nor a register with its value."""
    name, _, value = line.partition(" ")
    value = value.strip()
    if name.lower() == "size":
        if SIZE.fullmatch(line) and int(value) >= int(memory):
            return f"expected a size of at most {int(memory) - 1}"
        return "expected `size N` once, before all registers" if SIZE.fullmatch(line) or size is not None else \
            "expected `size` in lower case and a number of one to three digits, for example `size 100`"
    if re.fullmatch("[Rr][0-9]", name):
        return f"{EXPECTED}: write R0{name[1]}"
    if not re.fullmatch("R[0-9]{2,3}|[TZYXL]", name):
        upper = f": write {name.upper()}" if re.fullmatch("R[0-9]{2,3}|[TZYXL]", name.upper()) else ": no register has this name"
        return f"{EXPECTED}{upper}"
    if not value:
        return f"{EXPECTED}: the value is missing"
    return f"{EXPECTED}: {why_no_content(value)}"


def why_no_content(value: str) -> str:
    """Returns why a value is none."""
    if value.startswith('"'):
        return "the closing quote is missing" if value.count('"') == 1 else 'inside quotes, write " as \\22 and \\ as \\5C'
    if value.startswith("="):
        odd = re.search("[^0-9A-Fa-f]", value[1:])
        return f"found {f'`{odd[0]}`' if odd else f'{len(value) - 1} digits'} after =, expected 14 hexadecimal digits"
    if is_other_number(value):
        return why_no_number(value)
    return f'for a text write it in quotes, "{value}"' if re.fullmatch("[^0-9].*", value) else "the value is no number"


def digits_of(path: str, found: list[Named], errors: list[Error]) -> list[str]:
    """Returns the 14 digits of each register, as the bench reads its number or text. Raises Failure with all errors of the file."""
    deck, digits, errors = b"", [], list(errors)
    for _, _, value in found:
        lines = [value.encode(), b"ASTO X"] if value.startswith('"') else [b"0" if value.startswith("=") else value.encode()]
        deck += b"reset\n" + block(b"program", lines) + f"step {len(lines)}\nshow ram 003\n".encode()
    answers = [answer for _, _, answer in answered(deck)[1]]
    for at, (number, name, value) in enumerate(found):
        read = answers[4 * at + 1]
        digits.append(value[1:].upper() if value.startswith("=") else answers[4 * at + 3][-1].decode()[4:])
        if read or not value.startswith("=") and not is_whole(value, text_of(digits[-1])):
            why = read[0].decode() if read else f"a register cannot hold this value exactly, only {text_of(digits[-1])}"
            errors.append((number, f"`{name} {value}`: {why}"))
    if errors:
        raise Failure("\n".join(f"{path}:{number}: {why}" for number, why in sorted(errors)))
    return digits


def is_whole(value: str, again: str) -> bool:
    """Returns whether a number or text was stored completely. A number line takes ten digits, and ASTO takes six characters."""
    if value.startswith('"'):
        return value == again
    try:
        return Decimal(value) == Decimal(again)
    except InvalidOperation:
        return False


def stored(address: int, digits: str, comment: str) -> Iterator[str]:
    """Yields source lines that store a register."""
    yield f"LDI {address:03X} ; {comment}"
    yield "RAM SLCT"
    yield "C=0 ALL"
    for place in range(13, -1, -1):
        digit = digits[13 - place]
        if digit != "0":
            yield f"R= {place}"
            yield f"LD@R {int(digit, 16)}"
    yield "WRIT DATA"


def deck(options: argparse.Namespace) -> None:
    """Prints a deck that stores registers."""
    size, found, errors = values_in(options.file, options.memory)
    curtain = MAIN_START + int(options.memory) - (start_size(options.memory) if size is None else size)
    lines = [] if size is None else [f"size {size}"]
    digits = digits_of(options.file, found, errors)
    for first in range(0, len(found), IN_A_PAGE):
        source: list[str] = []
        for (_, name, value), of in list(zip(found, digits))[first:first + IN_A_PAGE]:
            address = STACK.index(name) if name in STACK else curtain + int(name[1:])
            source += stored(address, of, f"{name} {value}")
        steps = len(source) + 1
        lines += [f"asm {options.page}", *source, "RTN", "end", f"call {options.page}000", f"step {steps}",
                  f"unplug {options.page}"]
    end_with_reader()
    print(*lines, sep="\n", end="\n" if lines else "")


def read_options(words: list[str]) -> argparse.Namespace:
    """Parses the command line."""
    parser = Parser(prog="registers", add_help=False, allow_abbrev=False,
                    usage="tools/registers [--memory N] [--all] DECK, or tools/registers [--memory N] --deck "
                    "[--page P] FILE")
    parser.add_argument("--memory", choices=MEMORIES, default=MEMORY)
    parser.add_argument("--all", action="store_true")
    parser.add_argument("--deck", action="store_true")
    parser.add_argument("--page", type=lambda page: page.upper())
    parser.add_argument("file", metavar="FILE")
    options = parser.parse_args(words)
    if options.all and options.deck:
        parser.error("--all cannot be used with --deck: --all is for printing registers")
    if options.page is not None and not options.deck:
        parser.error(f"--page {options.page} can only be used with --deck")
    options.page = options.page or "F"
    if len(options.page) != 1 or options.page not in PAGES:
        parser.error(wrong_page(options.page))
    return options


def main(words: list[str]) -> int:
    """Prints registers, or a deck that stores them. Returns the status."""
    if words in (["-h"], ["--help"]):
        print(__doc__.strip())
        return 0
    options = read_options(words)
    (deck if options.deck else out)(options)
    return 0
