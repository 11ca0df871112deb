"""Bytes of programs as texts: rows of bar code, and hexadecimal digits. docs/OLD-PROGRAMS.md has their layouts."""
import re
from typing import Iterator, List, Tuple

from .counts import counted
from .records import PROGRAM, Part, ends_of, length_at

MOST_IN_ROW = 13
HEAD_OF_ROW = 3
TYPES = {1: "a program", 2: "a private program"}
ROW = re.compile(r"(?:row\s*)?([0-9]+)\s*(?:\([^)]*\))?\s*[:.]\s*", re.I)
PLACE = re.compile(r"([0-9A-Fa-f]{2,8})\s*:\s*")
SEPARATORS = re.compile(r"[\s,]+|0[xX](?=[0-9A-Fa-f])|\$")
COMMENT = re.compile(r"\s*(?:;|#|//).*")


class Unreadable(Exception):
    """A text that does not add up: the number of its line, the column, and what was found and expected."""

    def __init__(self, line: int, column: int, found: str, expected: str) -> None:
        """Takes the place, and what was found and expected."""
        super().__init__(f"{line}:{column}: found {found}, expected {expected}")


def lines_in(data: bytes) -> Iterator[Tuple[int, str]]:
    """Yields the lines of a text that are not empty, with their numbers and without comments."""
    for number, line in enumerate(data.decode("latin-1").replace("\r\n", "\n").split("\n"), 1):
        line = COMMENT.sub("", line).rstrip()
        if line.strip():
            yield number, line


def bytes_in(line: str, number: int, column: int) -> Iterator[Tuple[int, int]]:
    """Yields the bytes that hexadecimal digits spell from a column on, counted from 0, each with its column, counted from 1."""
    at = column
    while at < len(line):
        separator = SEPARATORS.match(line, at)
        if separator:
            at = separator.end()
            continue
        pair = line[at:at + 2]
        if not re.fullmatch("[0-9A-Fa-f]{2}", pair):
            wrong = at + int(re.match("[0-9A-Fa-f]", pair) is not None)
            found = f"`{line[wrong]}`" if wrong < len(line) else "the end of the line"
            raise Unreadable(number, wrong + 1, found, "two hexadecimal digits for each byte")
        yield int(pair, 16), at + 1
        at += 2


# Hexadecimal digits.

def read_hexadecimal(data: bytes) -> bytes:
    """Returns the bytes that a text spells. An offset and a colon may begin a line, and must be the number of bytes before it."""
    found: List[int] = []
    for number, line in lines_in(data):
        place = PLACE.match(line.lstrip())
        begin = len(line) - len(line.lstrip()) + (place.end() if place else 0)
        if place and int(place[1], 16) != len(found):
            raise Unreadable(number, 1, f"the offset {place[1]}", f"{len(found):04X}, the number of bytes before this line")
        found += [value for value, _ in bytes_in(line, number, begin)]
    if not found:
        raise Unreadable(1, 1, "no digits", "the bytes of a program in hexadecimal")
    return bytes(found)


def write_hexadecimal(programs: List[bytes]) -> bytes:
    """Returns lines of sixteen bytes, each with its offset."""
    data = b"".join(programs)
    return "".join(f"{at:04X}: {data[at:at + 16].hex(' ').upper()}\n" for at in range(0, len(data), 16)).encode()


# Rows of bar code.

def running_sum(before: int, data: bytes) -> int:
    """Returns the checksum of a row: the sum of that of the row before it and of the row's bytes, with the carry added again."""
    total = before
    for value in data:
        total += value
        total = total - 255 if total > 255 else total
    return total


def read_bars(data: bytes) -> List[Part]:
    """Returns the programs in rows of bar code, a row on each line in hexadecimal. Raises Unreadable if a row does not add up."""
    parts, program, row, before, is_private, number = [], b"", 0, 0, False, 0
    for number, line in lines_in(data):
        head = ROW.match(line.lstrip())
        values = list(bytes_in(line, number, len(line) - len(line.lstrip()) + (head.end() if head else 0)))
        row += 1
        if head and int(head[1]) != row:
            raise Unreadable(number, 1, f"row {head[1]}", f"row {row}")
        before = checked(values, number, row, before, program)
        is_private = is_private or values[1][0] >> 4 == 2
        program += bytes(value for value, _ in values[HEAD_OF_ROW:])
        if ends_of(program)[-1:] == [len(program)]:
            parts.append(part_of(program, is_private))
            program, row, before, is_private = b"", 0, 0, False
    rest = program[len(program) - partials(program, b"")[1]:] if program and partials(program, b"")[1] else b""
    if rest:
        raise Unreadable(number, 1, f"row {row} as the last one", f"another row, because its last instruction, {rest.hex(' ').upper()}, is "
                                                                  "incomplete")
    if program:
        raise Unreadable(number, 1, f"row {row} as the last one", "another row, because its program has no END")
    return parts


def part_of(program: bytes, private: bool) -> Part:
    """Returns a program that rows have spelled."""
    return Part("", PROGRAM, program, ["its rows are those of a private program"] if private else [])


def checked(values: List[Tuple[int, int]], line: int, row: int, before: int, program: bytes) -> int:
    """Returns the checksum of a row. `before` is that of the row before it, and `program` has the bytes of all rows before it."""
    data, columns = bytes(value for value, _ in values), [column for _, column in values]
    if not HEAD_OF_ROW < len(data) <= HEAD_OF_ROW + MOST_IN_ROW:
        raise Unreadable(line, 1, counted(len(data), "{} byte", "{} bytes"), f"{HEAD_OF_ROW + 1} to {HEAD_OF_ROW + MOST_IN_ROW} in a row")
    wanted = running_sum(before, data[1:])
    if data[1] >> 4 not in TYPES:
        raise Unreadable(line, columns[1], f"the type {data[1] >> 4:X}", "1 (program) or 2 (private program)")
    if data[1] & 0xF != (row - 1) % 16:
        raise Unreadable(line, columns[1], f"the number {data[1] & 0xF:X}", f"{(row - 1) % 16:X}, for row {row}: numbers begin with 0")
    if data[0] != wanted:
        raise Unreadable(line, columns[0], f"the checksum {data[0]:02X}", f"{wanted:02X}")
    first, last = partials(program, data[HEAD_OF_ROW:])
    if data[2] >> 4 != first:
        found = f"{data[2] >> 4} as the number of bytes that complete an instruction of the row before"
        raise Unreadable(line, columns[2], found, str(first))
    if data[2] & 0xF != last:
        found = f"{data[2] & 0xF} as the number of bytes of an instruction that the next row completes"
        raise Unreadable(line, columns[2], found, str(last))
    return data[0]


def partials(program: bytes, row: bytes) -> Tuple[int, int]:
    """Returns how many of the first bytes of a row complete an instruction of `program`, the bytes of the rows before it; and how many of
    its last bytes begin an instruction that the next row completes. If the row is empty, the second number is that of `program`."""
    data, begin, first, at = program + row, len(program) if row else 0, 0, 0
    while at < len(data):
        end = at + length_at(data, at)
        if at < begin < end:
            first = min(end, len(data)) - begin
        if end > len(data) or is_cut(data, at):
            return (len(row), 0) if at < begin else (first, len(data) - at)
        at = end
    return first, 0


def is_cut(data: bytes, at: int) -> bool:
    """Returns whether bytes end before the one that says how long the instruction at `at` is."""
    first = data[at]
    return 0x1D <= first <= 0x1F and at + 1 >= len(data) or 0xC0 <= first <= 0xCD and at + 2 >= len(data)


def write_bars(programs: List[bytes]) -> bytes:
    """Returns the rows of programs, each of which ends with its END. The rows and the checksum of each program begin anew."""
    lines = []
    for program in programs:
        before = 0
        for number, begin in enumerate(range(0, len(program), MOST_IN_ROW)):
            row = program[begin:begin + MOST_IN_ROW]
            first, last = partials(program[:begin], row)
            data = bytes([0x10 | number % 16, first << 4 | last]) + row
            before = running_sum(before, data)
            lines.append(f"Row {number + 1}: {before:02X} {data.hex(' ').upper()}\n")
    return "".join(lines).encode()
