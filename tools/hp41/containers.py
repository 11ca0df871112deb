"""Containers of programs: recognises them, reads their parts, and writes them. lif.py, bars.py and exchange.py have one reader and one
writer for each; docs/OLD-PROGRAMS.md has their layouts."""
import os
import re
from itertools import zip_longest
from typing import Callable, Dict, List, Optional

from . import exchange
from .bars import Unreadable, read_bars, read_hexadecimal, write_bars, write_hexadecimal
from .decks import MARK_OF_UTF8, Failure, bytes_of
from .functions import Functions
from .lif import is_headed, is_image, read_headed, read_image, write_headed, write_image
from .listings import Listing
from .misplaced import of_content
from .mods import FIXED, PAGES, Image, read_mod
from .modules import lines_of_texts
from .records import IMAGE, LISTING, OTHER, PROGRAM, Damaged, Part, ends_of, sum_of, without_sum
from .spellings import read_tables

LIF, P41, HEX, BARS, RAW, FREE42, MOD = "lif", "p41", "hex", "bars", "raw", "free42", "mod"
BY_NAME = {".lif": LIF, ".dat": LIF, ".p41": P41, ".hex": HEX, ".bars": BARS, ".mod": MOD}
WITH_NAMES = (LIF, MOD)
LISTINGS = tuple(exchange.READERS)
KINDS = (LIF, P41, HEX, BARS, MOD, *LISTINGS)

# The least number of bytes of hexadecimal digits by which a text without a known name is taken for them.
FEW_DIGITS = 8
DIGITS = re.compile(rb"[0-9A-Fa-f]{2}(?:[\s,]*[0-9A-Fa-f]{2})*\s*")


class Member:
    """A file, or a part of a container: its path for messages, its bytes, its kind if that is known, notes, its listing's kind, and the
    image of a page in a file .mod."""

    image: Optional[Image] = None

    def __init__(self, path: str, data: bytes, kind: Optional[str] = None, notes: Optional[List[str]] = None,
                 container: Optional[str] = None) -> None:
        """Begins without an image."""
        self.path, self.data, self.kind, self.notes, self.container = path, data, kind, notes or [], container


def container_of(path: str, data: bytes, kind: Optional[str]) -> Optional[str]:
    """Returns which container a file is, by the kind that is given, by its name, or by its content; None if it is none."""
    if kind is not None and kind not in (*KINDS, RAW):
        return None
    if kind in KINDS:
        return kind
    suffix = os.path.splitext(path)[1].lower()
    if re.match(rb"MOD[12]", data):
        return MOD
    if is_image(data):
        return LIF
    if is_headed(data):
        return P41
    if kind == RAW or suffix == ".raw":
        return RAW
    if suffix in BY_NAME:
        return BY_NAME[suffix]
    first = next((line for line in data[:2000].decode("utf-8", "replace").lstrip("\ufeff").splitlines() if line.strip()), "")
    if kind is None and exchange.HEAD.fullmatch(first):
        return FREE42
    plain = re.sub(rb"\s", b"", data)
    is_digits = len(plain) >= 2 * FEW_DIGITS and re.search(rb"[A-Fa-f]", plain) and DIGITS.fullmatch(data.strip())
    return HEX if not suffix and is_digits else None


def members_of(path: str, kind: Optional[str] = None) -> List[Member]:
    """Returns the parts of a container, or the file itself if it is none. Raises Failure if the container does not add up."""
    data = bytes_of(path)
    other = of_content(data) if kind is None else ""
    if other:
        raise Failure(f"{path}: {other}")
    container = container_of(path, data, kind) if data else None
    if container is None:
        return [Member(path, data)]
    try:
        if container == MOD:
            return members_of_mod(path, data)
        parts = READERS[container](data)
    except Damaged as damaged:
        raise Failure(f"{path}: {damaged}") from damaged
    except Unreadable as unreadable:
        raise Failure(f"{path}:{unreadable}") from unreadable
    if not parts:
        raise Failure(f"{path}: found no {'files in the directory' if container == LIF else 'rows of bar code'}, expected one at least")
    return [Member(f"{path}:{part.name}" if container == LIF else path, part.data, None if container == RAW else part.kind, part.notes,
                   container) for part in parts]


def members_of_mod(path: str, data: bytes) -> List[Member]:
    """Returns the images of the pages in a file .mod. Pages of the calculator itself are no images, because they cannot be plugged."""
    members = []
    for number, image in enumerate(read_mod(data), 1):
        is_own = image.position in FIXED and f"{image.position:X}" not in PAGES
        notes = [f"page {image.position:X} is the calculator's own and cannot be plugged: skipped"] if is_own else image.remarks()
        members.append(Member(f"{path}:{image.name or number}", image.bytes(), OTHER if is_own else IMAGE, notes, MOD))
        members[-1].image = image
    return members


def only(members: List[Member], names: Optional[List[str]]) -> List[Member]:
    """Returns the members with these names in a LIF image or a file .mod, or all if there are no names. Raises Failure if there is none."""
    if not names or members[0].container not in WITH_NAMES:
        return members
    found = [member for member in members if member.path.rsplit(":", 1)[1] in names]
    if not found:
        there = ", ".join(member.path.rsplit(":", 1)[1] for member in members)
        raise Failure(f"{members[0].path.rsplit(':', 1)[0]}: no file is named {' or '.join(names)}; found {there}")
    return found


# Readers.

def read_raw(data: bytes) -> List[Part]:
    """Returns the bytes of programs, without the head and the checksum that they may have."""
    if is_headed(data):
        return read_headed(data)
    programs, checksum = without_sum(data)
    notes = [] if checksum is None else [f"byte {len(programs)}, {checksum:02X}, is the checksum of the bytes before it and is removed"]
    return [Part("", PROGRAM, programs, notes)]


def read_p41(data: bytes) -> List[Part]:
    """Returns the program in a .p41 file. Without a head, it ends with its END, or with a checksum after it."""
    if data[10:12] == b"\xe0\x80":
        return read_headed(data)
    part, rest = read_raw(data)[0], data.rstrip(b"\0")
    if not part.notes and ends_of(rest)[-1:] == [len(rest) - 1]:
        raise Damaged(len(rest) - 1, f"{rest[-1]:02X} after the END", f"{sum_of(rest[:-1]):02X}, the checksum of the bytes before it")
    return [part]


def listing_reader(kind: str) -> Callable[[bytes], List[Part]]:
    """Returns the reader for a listing of another program."""
    def read(data: bytes) -> List[Part]:
        """Returns the listing in the spellings of the bench. Bytes that are no UTF-8 are not changed."""
        try:
            text = data.removeprefix(MARK_OF_UTF8).decode("utf-8")
        except UnicodeDecodeError:
            return [Part("", LISTING, data)]
        return [Part("", LISTING, exchange.READERS[kind](text).encode())]
    return read


def read_hex(data: bytes) -> List[Part]:
    """Returns the bytes that hexadecimal digits spell, which may have a head and a checksum."""
    return read_raw(read_hexadecimal(data))


READERS: Dict[str, Callable[[bytes], List[Part]]] = {
    LIF: read_image, P41: read_p41, RAW: read_raw, HEX: read_hex, BARS: read_bars,
    **{kind: listing_reader(kind) for kind in LISTINGS}}

# Writers of the bytes of programs, each with its END. Those of listings are in exchange.py.
WRITERS: Dict[str, Callable[[List[bytes]], bytes]] = {
    LIF: write_image, P41: write_headed, HEX: write_hexadecimal, BARS: write_bars}


def packed(kind: str, programs: List[bytes]) -> bytes:
    """Returns programs in a container. Raises Failure if it cannot have them, or if other bytes are read from it again."""
    if kind == P41 and programs[1:]:
        raise Failure(f"{kind}: found {len(programs)} programs, expected one: choose it with --label NAME")
    data = WRITERS[kind](programs)
    again = b"".join(part.data for part in READERS[kind](data))
    if again != b"".join(programs):
        wanted = b"".join(programs)
        at = next(at for at in range(len(again) + len(wanted)) if again[at:at + 1] != wanted[at:at + 1])
        raise Failure(f"{kind}: byte {at} of the programs is {again[at:at + 1].hex().upper() or 'missing'} in place of "
                      f"{wanted[at:at + 1].hex().upper() or 'none'} when the file is read again, so nothing is written: please report this "
                      "with the deck")
    return data


def listing_of(kind: str, programs: List[List[str]]) -> bytes:
    """Returns the listing of programs, each with its END, as another program writes it. Raises Failure if other lines are read from it."""
    lines = [line for texts in programs for line in exchange.WRITERS[kind](lines_of_texts(texts) or [])]
    text = "".join(f"{line}\n" for line in lines)
    again = Listing(exchange.READERS[kind](text).split("\n"), functions=Functions(read_tables()))
    wanted = [text for texts in programs for text in texts]
    found = [text for text in again.texts if text]
    if again.bad or found != wanted:
        first = (f"line {again.bad[0][0]} of the file, `{again.bad[0][1]}`, cannot be read" if again.bad else
                 next(f"program line {number} is `{one or ''}` in place of `{other or ''}`"
                      for number, (one, other) in enumerate(zip_longest(found, wanted), 1) if one != other))
        raise Failure(f"{kind}: {first} when the file is read again, so nothing is written: please report this with the deck")
    return text.encode()
