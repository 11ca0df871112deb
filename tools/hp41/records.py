"""Bytes of programs: where their lines end, their checksum, and what containers of programs share."""
import re
from dataclasses import dataclass, field
from typing import List, Optional, Tuple

# What a part of a container is. The value of a part of kind DATA is its bytes, eight for each register.
PROGRAM, LISTING, DATA, OTHER, IMAGE = "raw", "listing", "data", "other", "image"

END = bytes.fromhex("C0000D")
LETTERS = re.compile(rb"[\x20-\x7e]*")
# The bytes of a number: digits, signs, points and exponents.
NUMBER = re.compile(rb"[\x10-\x1c]{1,16}")


class Damaged(Exception):
    """A container that does not add up: the byte, what was found there, and what was expected."""

    def __init__(self, at: int, found: str, expected: str) -> None:
        """Takes the place, and what was found and expected."""
        super().__init__(f"byte {at}: found {found}, expected {expected}")
        self.at, self.found, self.expected = at, found, expected


@dataclass
class Part:
    """A file in a container: its name, its kind, its bytes, and notes about it."""

    name: str
    kind: str
    data: bytes
    notes: List[str] = field(default_factory=list)


def number_in(data: bytes, at: int, width: int) -> int:
    """Returns the number in `width` bytes from `at` on, the high byte first."""
    return int.from_bytes(data[at:at + width], "big")


def number(value: int, width: int) -> bytes:
    """Returns a number in `width` bytes, the high byte first."""
    return value.to_bytes(width, "big")


def sum_of(data: bytes) -> int:
    """Returns the checksum of a program's bytes: the low eight bits of their sum."""
    return sum(data) & 0xFF


def length_at(data: bytes, at: int) -> int:
    """Returns how many bytes the instruction that begins at `at` has, by docs/PROGRAMS.md. Each digit of a number is an instruction of one
    byte. The bytes may end before the instruction does."""
    first = data[at]
    if 0x1D <= first <= 0x1F:
        return 2 + (data[at + 1] & 0xF if at + 1 < len(data) else 0)
    if first < 0x90:
        return 1
    if first < 0xC0 or first in (0xCE, 0xCF):
        return 2
    if first < 0xD0:
        third = data[at + 2] if at + 2 < len(data) else 0
        return 3 + (third & 0xF if third >= 0xF0 else 0)
    return 3 if first < 0xF0 else 1 + (first & 0xF)


def lines_in(data: bytes) -> List[Tuple[int, int]]:
    """Returns where each line of some bytes begins and ends. Nulls between lines belong to none. A number has up to 16 bytes."""
    found, at = [], 0
    while at < len(data):
        number = NUMBER.match(data, at)
        end = number.end() if number else at + length_at(data, at)
        if data[at]:
            found.append((at, end))
        at = end
    return found


def is_end(data: bytes, at: int) -> bool:
    """Returns whether an END or .END. begins at `at`."""
    return 0xC0 <= data[at] <= 0xCD and at + 2 < len(data) and data[at + 2] < 0xF0


def ends_of(data: bytes) -> List[int]:
    """Returns the number of bytes up to each END, including it."""
    found, at = [], 0
    while at < len(data):
        ended = is_end(data, at)
        at += length_at(data, at)
        if ended:
            found.append(at)
    return found


def last_end(data: bytes) -> bytes:
    """Returns the END at the end of some bytes, after which there may be nulls; no bytes if there is none."""
    last = (ends_of(data) or [0])[-1]
    return data[last - len(END):last] if last and not data[last:].strip(b"\0") else b""


def with_its_end(data: bytes) -> bytes:
    """Returns the bytes of a program after which another one is loaded, with the END of archives. `load` drops the last END, so there is
    one more."""
    return (data[:ends_of(data)[-1] - len(END)] if last_end(data) else data) + END + END


def programs_in(data: bytes) -> List[bytes]:
    """Returns the programs in some bytes, each with its END. Bytes after the last END are a program too, unless they are nulls."""
    found, begin = [], 0
    for end in ends_of(data):
        found.append(data[begin:end])
        begin = end
    rest = data[begin:].rstrip(b"\0")
    return [*found, rest] if rest else found


def name_of(data: bytes) -> str:
    """Returns the first name of a label in a program, in letters that a file's name may have; an empty text if there is none."""
    at = 0
    while at < len(data):
        length = length_at(data, at)
        if 0xC0 <= data[at] <= 0xCD and at + 2 < len(data) and data[at + 2] >= 0xF2:
            name = re.sub(r"[^A-Z0-9]", "", data[at + 4:at + length].decode("latin-1").upper())
            if name:
                return name
        at += length
    return ""


def names_for(programs: List[bytes], width: int) -> List[str]:
    """Returns a name for each program, at most `width` letters, all different and beginning with a letter."""
    found: List[str] = []
    for at, data in enumerate(programs, 1):
        name = name_of(data) or f"PROG{at}"
        name = (name if name[0].isalpha() else f"P{name}")[:width]
        twice = 1
        while name in found:
            twice += 1
            name = f"{name[:width - len(str(twice))]}{twice}"
        found.append(name)
    return found


def without_sum(data: bytes) -> Tuple[bytes, Optional[int]]:
    """Returns bytes of programs without a checksum after the last END, and this checksum; None if there is none. Nulls may follow it."""
    ends = ends_of(data)
    end = ends[-1] if ends else 0
    rest = data[end:].rstrip(b"\0")
    if end and len(rest) == 1 and rest[0] == sum_of(data[:end]):
        return data[:end], rest[0]
    return data, None
