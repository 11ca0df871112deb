"""The programs of a library: finds them in files, folders and containers, and collects what can be seen of each without running it. The
bench decides what is a line; it is asked for many programs at once."""
import functools
import hashlib
import os
import re
from dataclasses import dataclass, field
from typing import Callable, Dict, Iterable, Iterator, List, NamedTuple, Optional, Set, Tuple, TypeVar, Union

from . import listings, programs
from .containers import BY_NAME, FREE42, Member, members_of
from .counts import counted
from .decks import MARK_OF_UTF8, MARKS_OF_UTF16, Failure, answered, block, ended, hexadecimal, shown
from .doubts import PRIVATE, PRIVATE_ROWS, Doubt, at_places, of_bytes, of_line, parted
from .exchange import Count, counts_in, wanted_counts
from .functions import Functions, table
from .misplaced import PACKED, UNPACK
from .modules import Refusals, lines_of_bytes, lines_of_texts
from .programs import LOCAL, broken
from .records import DATA, END, LISTING, OTHER, ends_of, length_at, programs_in
from .spellings import Tables, read_tables

# The names of files that can have a program. Files without an ending are tried too.
LISTING_NAMES = (".txt", ".lst", ".lines", ".prg")
NAMES = (*BY_NAME, *LISTING_NAMES, ".raw", "")

REGISTERS = re.compile(r"(RCL|STO|ST[-+*/]|[ID]S[GE]|VIEW|ASTO|ARCL|X<>|SREG) (IND )?([0-9]{2,3}|[A-Za-z])")
INDIRECT = re.compile(r".* IND ([0-9]{2,3})")
SUMS = {"S+", "S-", "CLS", "MEAN", "SDEV"}
# Statistics use six registers, from R11 on if there is no SREG.
FIRST_SUM, LAST_SUM = 11, 5
NAMED_LABEL = re.compile(r'LBL "(.*)"')
NAMED_CALL = re.compile(r'(?:GTO|XEQ) "(.*)"')
NUMBER = re.compile(r"NEG|(?!-\Z)[-0-9.E]+")
HASH = 12
REGISTER = 7

# A line that is put after the END of a program, the END of archives, and the most bytes of programs in memory.
SENTINEL, SENTINEL_BYTE, MOST_BYTES = "BEEP", b"\x86", 2237


@dataclass
class Row:
    """A program, or a file that has none: what the catalogue says of it. `state` is `program`, `none` or `refused`."""

    file: str
    state: str = "program"
    why: str = ""
    labels: List[str] = field(default_factory=list)
    bytes: int = 0
    registers: int = 0
    lines: int = 0
    size: int = 0
    indirect: bool = False
    calls: List[str] = field(default_factory=list)
    unsupported: List[str] = field(default_factory=list)
    doubts: List[str] = field(default_factory=list)
    hash: str = ""
    same: str = ""
    listing: List[str] = field(default_factory=list)
    # Named calls that lead nowhere in this program alone, and a hash of its bytes.
    open: Dict[str, List[int]] = field(default_factory=dict)
    exact: str = ""


class Program(NamedTuple):
    """A program that was found: its file, its number among the programs of the file and the byte at which it begins, its bytes or its
    lines, doubts, and the head of a listing of Free42."""

    file: str
    number: int
    begin: int
    data: Optional[bytes]
    texts: List[str]
    doubts: List[str]
    head: Optional[Count]


Item = TypeVar("Item")
Result = TypeVar("Result")


class Answers:
    """What the bench says of lines. Unknown lines are collected, and asked for together."""

    def __init__(self) -> None:
        """Begins without answers."""
        self.lines: Dict[str, bool] = {}
        self.fates: Dict[str, Tuple[bool, bool]] = {}
        self.unknown: Set[str] = set()
        self.unknown_fates: Set[str] = set()
        self.is_whole = True

    def readable(self, texts: Iterable[str]) -> Set[str]:
        """Returns those of the texts that the bench reads as program lines. Unknown ones are taken for lines."""
        texts = {text for text in texts if listings.may_be_line(text)}
        missing = {text for text in texts if text not in self.lines}
        self.unknown |= missing
        self.is_whole = self.is_whole and not missing
        return {text for text in texts if self.lines.get(text, True)}

    def fates_of(self, texts: Iterable[str], _front: bytes = b"") -> Tuple[Set[str], Set[str]]:
        """Returns which of these lines are not supported, and which lead nowhere. Unknown ones are taken for supported."""
        texts = set(texts)
        missing = {text for text in texts if text not in self.fates}
        self.unknown_fates |= missing
        self.is_whole = self.is_whole and not missing
        known = {text: self.fates[text] for text in texts - missing}
        return {text for text, (out, _) in known.items() if out}, {text for text, (_, nowhere) in known.items() if nowhere}

    def ask(self) -> None:
        """Asks the bench for the lines that are unknown."""
        unknown, fates = self.unknown, self.unknown_fates
        self.unknown, self.unknown_fates, self.is_whole = set(), set(), True
        if unknown:
            good = READABLE(unknown)
            self.lines.update((text, text in good) for text in unknown)
        if fates:
            left_out, nowhere = FATES(fates, b"")
            self.fates.update((text, (text in left_out, text in nowhere)) for text in fates)

    def complete(self, work: Callable[[Item], Result], items: List[Item]) -> List[Result]:
        """Returns the results of `work` for all items. An item whose lines were unknown is worked on again."""
        results: Dict[int, Result] = {}
        left = list(range(len(items)))
        while left:
            again = []
            for at in left:
                self.is_whole = True
                results[at] = work(items[at])
                if not self.is_whole:
                    again.append(at)
            self.ask()
            left = again
        return [results[at] for at in range(len(items))]


READABLE, FATES = listings.readable, programs.fates
ANSWERS = Answers()


@functools.lru_cache(None)
def tables() -> Tables:
    """Returns the tables of spellings, which are read once."""
    return read_tables()


@functools.lru_cache(None)
def functions() -> Functions:
    """Returns the known functions of modules."""
    return Functions(tables())


@functools.lru_cache(None)
def modules() -> Dict[str, str]:
    """Returns for each line of a known function its name with its module."""
    return {line: f"{name} ({module})" for line, name, module in table()}


def share_answers() -> None:
    """Lets the reader of listings ask for its lines together with those of other listings."""
    for name, function in (("readable", ANSWERS.readable), ("fates", ANSWERS.fates_of), ("read_tables", tables)):
        setattr(listings, name, function)


# Files.

def files_in(paths: List[str]) -> Iterator[str]:
    """Yields the files of folders, and files. Names that begin with a point are omitted in folders, and so are links to folders."""
    for path in paths:
        if not os.path.isdir(path):
            yield path
            continue
        for folder, folders, names in os.walk(path):
            folders[:] = sorted(name for name in folders if not name.startswith("."))
            yield from (os.path.join(folder, name) for name in sorted(names) if not name.startswith("."))


def found_in(path: str) -> Tuple[List[Member], Optional[Row]]:
    """Returns the members of a file that can be programs; or a row that says why it has none."""
    if os.path.islink(path) and not os.path.exists(path):
        return [], Row(path, "refused", f"this link leads nowhere: found {os.readlink(path)}, expected a file")
    if not os.path.isfile(path):
        return [], Row(path, "none", "found a device or a pipe, expected a regular file")
    ending = os.path.splitext(path)[1]
    if ending.lower() not in NAMES:
        why = f"found a name that ends in {ending}, expected one of a program: {', '.join(filter(None, NAMES))}"
        return [], Row(path, "refused", UNPACK) if is_packed(path) else Row(path, "none", why)
    try:
        members = members_of(path)
    except Failure as failure:
        return [], Row(path, "refused", re.sub(rf"\A{re.escape(path)}: ?", "", str(failure)))
    if not members[0].data:
        return [], Row(path, "refused", "the file is empty")
    return members, None


def is_packed(path: str) -> bool:
    """Returns whether a file begins as a packed archive does, which may have programs in it."""
    try:
        with open(path, "rb") as file:
            return file.read(max(map(len, PACKED))).startswith(PACKED)
    except OSError:
        return False


def text_of(member: Member) -> Optional[List[str]]:
    """Returns the lines of a text in UTF-8; None if the bytes are no text."""
    data = member.data.removeprefix(MARK_OF_UTF8).rstrip(b"\x1a")
    if data[:2] in MARKS_OF_UTF16 or re.search(rb"[\x00-\x08\x0b\x0e-\x1f]", data):
        return None
    try:
        return data.decode("utf-8").replace("\r\n", "\n").replace("\r", "\n").split("\n")
    except UnicodeDecodeError:
        return None


def programs_of(member: Member) -> List[Union[Program, Row]]:
    """Returns the programs of a member, or a row that says why it has none."""
    suffix = os.path.splitext(member.path)[1].lower()
    if member.kind in (DATA, OTHER):
        return [Row(member.path, "none", "; ".join(member.notes))]
    if member.kind == "raw" or member.container == "raw" or suffix == ".raw":
        return programs_of_bytes(member)
    lines = text_of(member)
    if lines is None:
        is_text = member.kind == LISTING or suffix in LISTING_NAMES
        why = "found bytes that are no text in UTF-8, expected a listing: convert it with iconv, or name bytes of a program .raw"
        other = "found bytes that are no text in UTF-8, expected a listing or a container"
        return [Row(member.path, "refused" if is_text else "none", why if is_text else other)]
    return programs_of_listing(member, lines)


def programs_of_bytes(member: Member) -> List[Union[Program, Row]]:
    """Returns the programs in the bytes of a member, or a row if there are none."""
    found: List[Union[Program, Row]] = []
    begin = 0
    doubts = [*(Doubt(PRIVATE, 1, 1, note) for note in member.notes if note == PRIVATE_ROWS), *of_bytes(member.data)]
    for number, data in enumerate(programs_in(member.data), 1):
        own = [in_row(doubt) for doubt in doubts if doubt.program == number]
        found.append(Program(member.path, number, begin, data, [], own, None))
        begin += len(data)
    return found or [Row(member.path, "refused", "found nulls alone, expected the bytes of a program")]


def in_row(doubt: Doubt) -> str:
    """Returns a doubt as a row has it."""
    return f"line {doubt.line}: {doubt.text} [{doubt.name}]"


def programs_of_listing(member: Member, lines: List[str]) -> List[Union[Program, Row]]:
    """Returns the programs of a listing, or a row that says why it has none."""
    listing = listings.Listing(lines, functions=functions())
    if listing.bad:
        number, line, reason = listing.bad[0]
        more = f" (and {listing.unread - 1} more)" if listing.unread > 1 else ""
        return [Row(member.path, "none" if listing.is_foreign() else "refused", "a text that is no listing" if listing.is_foreign() else
                    f"line {number}: `{shown(line)}`: not a program line{f': {reason}' if reason else ''}{more}")]
    doubts = [in_row(doubt) for doubt in parted(listing.doubts, ())[0]]
    counts = counts_in(lines) if member.container == FREE42 else []
    found: List[Union[Program, Row]] = []
    texts: List[str] = []
    for text in [*(text for text in listing.texts if text and not text.startswith("#")), None]:
        if text is None and not texts:
            break
        if text is None or text in ("END", ".END."):
            at = len(found)
            own = [] if at else doubts
            found.append(Program(member.path, at + 1, 0, None, texts, own if text else [*own, "no END"],
                                 counts[at] if at < len(counts) else None))
            texts = []
        else:
            texts.append(text)
    return found or [Row(member.path, "none", "a text without program lines")]


# Programs.

def deck_of(program: Program) -> bytes:
    """Returns the commands that load a program alone into an empty memory. A line after its END keeps the END where it is."""
    load = (block(b"program", [text.encode() for text in [*program.texts, "END", SENTINEL]]) if program.data is None else
            block(b"load", hexadecimal(with_end(program.data) + SENTINEL_BYTE)))
    return b"reset\nsize 0\n" + load + b"show lines\n"


def with_end(data: bytes) -> bytes:
    """Returns the bytes of a program with an END at their end, in place of an .END. or of none."""
    if ends_of(data)[-1:] == [len(data)]:
        return data[:-3] + END if data[-1] & 0x20 else data
    return data + END


def lines_in(found: List[Program]) -> List[Optional[List[Tuple[int, str]]]]:
    """Returns for each program its lines with their positions, up to its END; None if the bench refuses it. One bench is asked for all."""
    status, answers = answered(b"".join(map(deck_of, found)))
    if status > 1:
        files = list(dict.fromkeys(program.file for program in found))
        place = files[0] + (f" (and {len(files) - 1} more)" if files[1:] else "")
        raise Failure(f"{place}: {ended(status, f'when it was asked for the lines of {len(found)} programs')}")
    results: List[Optional[List[Tuple[int, str]]]] = []
    for (_, _, loaded), (_, _, lines) in zip(answers[2::4], answers[3::4]):
        texts = [(int(line[:4]), line[5:].decode()) for line in lines]
        ends = [at for at, (_, text) in enumerate(texts) if text == "END"]
        results.append(None if loaded or not ends else texts[:ends[0] + 1])
    return [long_lines(program) if lines is None and is_long(program) else lines for program, lines in zip(found, results)]


def is_long(program: Program) -> bool:
    """Returns whether a program may be too long for memory."""
    return len(program.data if program.data is not None else program.texts) > MOST_BYTES // (1 if program.data is not None else 16)


def long_lines(program: Program) -> Optional[List[Tuple[int, str]]]:
    """Returns the lines of a program that is loaded in pieces; None if it is refused."""
    lines = lines_of_texts([*program.texts, "END"]) if program.data is None else lines_of_bytes(with_end(program.data))
    if lines is None:
        return None
    found, at = [], 0
    for text, data in lines:
        found.append((at, text))
        at += len(data)
    return found


def fault_of(program: Program) -> str:
    """Returns why the bench refuses a program, with the byte of the file."""
    data, at = program.data, 0
    if data is None:
        refusals: Refusals = []
        lines_of_texts([*program.texts, "END"], refusals)
        return "the bench refuses its lines" + "".join(f": {refusal} at line {line + 1}" for line, refusal in refusals)
    while at < len(data):
        length = length_at(data, at)
        is_label = 0xC0 <= data[at] <= 0xCD and at + 2 < len(data)
        if data[at] in (0xAF, 0xB0) or is_label and data[at + 2] == 0xF0:
            return f"byte {program.begin + at}: found {data[at:at + length].hex(' ').upper()}, expected the beginning of a line"
        if at + length > len(data):
            return f"byte {program.begin + at}: found {data[at:].hex(' ').upper()}, expected {length} bytes, a whole line"
        at += length
    return broken(data)


def row_of(program: Program, lines: Optional[List[Tuple[int, str]]]) -> Row:
    """Returns the row of a program."""
    name = program.file if program.number == 1 else f"{program.file} (program {program.number})"
    if lines is None:
        return Row(program.file, "refused", fault_of(program))
    texts = [text for _, text in lines if text not in ("END", ".END.")]
    length = len(program.data) if program.data is not None else lines[-1][0] + 3
    wrong = wrong_count(program, lines)
    if wrong:
        return Row(program.file, "refused", wrong)
    row = Row(name, labels=[found[1] for found in map(NAMED_LABEL.fullmatch, texts) if found], bytes=length,
              registers=-(-length // REGISTER), lines=len(texts) + 1, doubts=list(program.doubts), listing=[*texts, "END"])
    row.size, row.indirect = size_of(texts)
    row.hash = hashed("\n".join(texts).encode())
    row.exact = hashed(program.data if program.data is not None else b"\n" + "\n".join(texts).encode())
    if program.data is not None:
        row.doubts += [in_row(doubt) for number, text in enumerate(texts, 1) for doubt in at_places(of_line(text), number, text)]
    judge(row, texts)
    return row


def wrong_count(program: Program, lines: List[Tuple[int, str]]) -> str:
    """Returns an error if the head of a listing of Free42 counts other bytes than the program has."""
    if program.head is None:
        return ""
    sized = []
    for (at, text), (after, following) in zip(lines, lines[1:]):
        is_number = NUMBER.fullmatch(text) is not None
        nulls = int(is_number and NUMBER.fullmatch(following) is not None)
        sized.append((text, bytes([0x10 if is_number else 0x40]) * (after - at - nulls)))
    wanted = wanted_counts(sized)
    return "" if program.head.bytes in wanted else (
        f"line {program.head.line}: `{program.head.text}`: found {counted(program.head.bytes, '{} byte', '{} bytes')} in the head, "
        f"expected {wanted[0]}")


def hashed(data: bytes) -> str:
    """Returns the first digits of the SHA-256 of some bytes."""
    return hashlib.sha256(data).hexdigest()[:HASH]


def size_of(texts: List[str]) -> Tuple[int, bool]:
    """Returns the SIZE that the direct registers of lines need, and whether lines use registers indirectly too."""
    size, is_indirect = 0, False
    for text in texts:
        found, indirect = REGISTERS.fullmatch(text), INDIRECT.fullmatch(text)
        if found and found[2]:
            is_indirect = True
        elif found and found[3].isdigit():
            size = max(size, int(found[3]) + 1 + (LAST_SUM if found[1] == "SREG" else 0))
        if indirect:
            size = max(size, int(indirect[1]) + 1)
    if SUMS.intersection(texts) and not any(text.startswith("SREG") for text in texts):
        size = max(size, FIRST_SUM + LAST_SUM + 1)
    return size, is_indirect


def judge(row: Row, texts: List[str]) -> None:
    """Adds what the lines of a program call, which of them are not supported, and which lead nowhere."""
    own = {f"LBL {text[4:]}" for text in texts if text.startswith("LBL ")}
    asked = {text for text in texts if not text.startswith(('"', '>"', "LBL ", "XROM ")) and not LOCAL.fullmatch(text)
             and not NUMBER.fullmatch(text) and f"LBL {text[4:]}" not in own}
    left_out, nowhere = ANSWERS.fates_of(asked)
    places: Dict[str, List[int]] = {}
    for number, text in enumerate(texts, 1):
        places.setdefault(text, []).append(number)
    for text, numbers in places.items():
        called, local = NAMED_CALL.fullmatch(text), LOCAL.fullmatch(text)
        if text.startswith("XROM "):
            row.calls.append(modules().get(text, text))
        elif called and f"LBL {text[4:]}" not in own:
            row.calls.append(f'"{called[1]}"')
            if text in nowhere:
                row.open[called[1]] = numbers
        elif local and f"LBL {local[1]}" not in own:
            row.doubts.append(f"{text} leads nowhere ({programs.placed(numbers)})")
        if text in left_out:
            row.unsupported.append(f"{text} ({programs.placed(numbers)})")
    row.calls = list(dict.fromkeys(row.calls))


def rows_of(paths: List[str]) -> List[List[Row]]:
    """Returns the rows of each file: one for each program, or one if it has none."""
    share_answers()
    found: List[List[Union[Member, Row]]] = []
    for path in paths:
        members, row = found_in(path)
        found.append([row] if row else [*members])
    read = iter(ANSWERS.complete(programs_of, [one for own in found for one in own if isinstance(one, Member)]))
    items: List[List[Union[Program, Row]]] = [[] for _ in found]
    for into, own in zip(items, found):
        for one in own:
            if isinstance(one, Row):
                into.append(one)
            else:
                into += next(read)
    programs_found = [item for own in items for item in own if isinstance(item, Program)]
    pairs = list(zip(programs_found, lines_in(programs_found) if programs_found else []))
    dropped = after_refused(pairs)
    rows = iter(ANSWERS.complete(lambda pair: row_of(*pair), [pair for pair in pairs if id(pair[0]) not in dropped]))
    return [whole_files([item if isinstance(item, Row) else next(rows) for item in own if id(item) not in dropped]) for own in items]


def after_refused(pairs: List[Tuple[Program, Optional[List[Tuple[int, str]]]]]) -> Set[int]:
    """Returns the programs, by their identities, of files of bytes of which one is refused, without the first refused one of each file.
    They get no row, and random bytes can have hundreds of them."""
    first: Dict[str, Program] = {}
    for program, lines in pairs:
        if lines is None and program.data is not None:
            first.setdefault(program.file, program)
    return {id(program) for program, _ in pairs if program.data is not None and first.get(program.file, program) is not program}


def whole_files(rows: List[Row]) -> List[Row]:
    """Returns rows without the programs of a file of which one is refused: only the row of its first refusal stays."""
    refused: Dict[str, Row] = {}
    for row in rows:
        if row.state == "refused":
            refused.setdefault(row.file, row)
    return [row for row in rows if refused.get(re.sub(r" \(program [0-9]+\)\Z", "", row.file), row) is row]


def joined(rows: List[Row]) -> List[Row]:
    """Returns rows after they are compared: calls of labels that no file has are doubts, and copies name the first of them."""
    labels = {label for row in rows for label in row.labels}
    first: Dict[str, Row] = {}
    for row in rows:
        row.doubts += [f'"{name}" is called, but no file has it ({programs.placed(numbers)})' for name, numbers in row.open.items()
                       if name not in labels]
        if row.state != "program":
            continue
        other = first.setdefault(row.hash, row)
        if other is not row:
            row.same = f"{'a copy of' if other.exact == row.exact else 'the same lines as'} {other.file}"
    return rows
