"""LIF disk images, and the files that begin with an entry of a LIF directory, such as .p41. docs/OLD-PROGRAMS.md has their layouts."""
from typing import List, NamedTuple, Optional, Tuple

from .counts import counted
from .records import DATA, END, LETTERS, LISTING, OTHER, PROGRAM, Damaged, Part, ends_of, is_end, names_for, number, number_in, sum_of

RECORD, ENTRY, HEAD = 256, 32, 512
VOLUME, SYSTEM = b"\x80\x00", b"\x10\x00"
DELETED, END_OF_DIRECTORY, TEXT_TYPE, PROGRAM_TYPE, DATA_TYPE = 0, 0xFFFF, 0x0001, 0xE080, 0xE0D0
TYPES = {0xE020: "write-all", 0xE030: "key assignments", 0xE040: "status", 0xE050: "key assignments", 0xE060: "module",
         0xE070: "module", 0xE0B0: "buffer"}
NAME, LENGTH = 10, 28
LAST_VOLUME = 0x8001
END_OF_TEXT = 0xFFFF
REGISTER = 8


class Entry(NamedTuple):
    """An entry of a directory, and the byte at which it begins."""

    at: int
    name: str
    kind: int
    start: int
    records: int
    length: int


def is_image(data: bytes) -> bool:
    """Returns whether bytes begin as a LIF volume does."""
    return data[:2] == VOLUME and data[12:14] == SYSTEM and len(data) >= HEAD


def is_headed(data: bytes) -> bool:
    """Returns whether bytes begin with the entry of a program: a name of ten characters, and the type E080. If the name does not begin
    with a letter, or has a space in it, the entry must give the number of bytes up to an END."""
    name = data[:NAME]
    if len(data) <= ENTRY or number_in(data, NAME, 2) != PROGRAM_TYPE or LETTERS.fullmatch(name) is None or not name.strip():
        return False
    last = ENTRY + number_in(data, LENGTH, 2)
    return (name[:1].isalpha() and b" " not in name.rstrip(b" ")
            or ENTRY + len(END) <= last <= len(data) and is_end(data[:last], last - len(END)))


def entry_at(data: bytes, at: int) -> Entry:
    """Returns the entry at a byte. Raises Damaged if its name has characters that no name has."""
    raw = data[at:at + NAME]
    found = LETTERS.match(raw)
    width = found.end() if found else 0
    if width < NAME:
        raise Damaged(at + width, f"{raw[width]:02X}", f"one of the {NAME} characters of a file name, 20 to 7E")
    return Entry(at, raw.decode().rstrip(" "), number_in(data, at + 10, 2), number_in(data, at + 12, 4), number_in(data, at + 16, 4),
                 number_in(data, at + LENGTH, 2))


def read_image(data: bytes) -> List[Part]:
    """Returns the files of a LIF image. Raises Damaged if it does not add up."""
    first, records = head_of(data)
    entries, deleted = entries_of(data, first, records)
    last, parts = first + records, []
    for entry in sorted(entries, key=lambda entry: entry.start):
        if entry.start < last:
            what = "the directory" if last == first + records else "the file before it"
            raise Damaged(entry.at + 12, f"record {entry.start} as the start of {entry.name}", f"{last} or more, after {what}")
        last = entry.start + entry.records
        if last * RECORD > len(data):
            raise Damaged(entry.at + 16, f"{entry.records} records for {entry.name}, up to byte {last * RECORD}",
                          f"records within the {len(data)} bytes of the image")
    for entry in entries:
        begin = entry.start * RECORD
        parts.append(part_of(entry, data[begin:begin + entry.records * RECORD], begin))
    if deleted and parts:
        parts[0].notes.append(f"the directory of its image has {deleted} deleted {'file' if deleted == 1 else 'files'} too")
    return parts


def head_of(data: bytes) -> Tuple[int, int]:
    """Returns the first record of the directory, and how many records it has, by the head of a volume."""
    if data[:2] != VOLUME:
        raise Damaged(0, data[:2].hex().upper() or "no byte", "8000, the beginning of a LIF volume")
    if len(data) < HEAD:
        raise Damaged(len(data), "the end of the image", f"the head of a LIF volume and its directory, at least {HEAD} bytes")
    first, records = number_in(data, 8, 4), number_in(data, 16, 4)
    if not 1 <= first < len(data) // RECORD:
        raise Damaged(8, f"record {first} as the start of the directory", f"1 to {len(data) // RECORD - 1}")
    if not 1 <= records <= len(data) // RECORD - first:
        raise Damaged(16, f"{records} records in the directory", f"1 to {len(data) // RECORD - first}")
    return first, records


def entries_of(data: bytes, first: int, records: int) -> Tuple[List[Entry], int]:
    """Returns the entries of a directory, up to its end, and how many deleted ones are among them."""
    found, deleted = [], 0
    for at in range(first * RECORD, (first + records) * RECORD, ENTRY):
        kind = number_in(data, at + NAME, 2)
        if kind == END_OF_DIRECTORY:
            break
        if kind == DELETED:
            deleted += 1
            continue
        found.append(entry_at(data, at))
    return found, deleted


def part_of(entry: Entry, data: bytes, begin: int) -> Part:
    """Returns the file of an entry, from the bytes of its records, which begin at the byte `begin`."""
    if entry.kind == PROGRAM_TYPE:
        return Part(entry.name, PROGRAM, program_of(entry, data, begin))
    if entry.kind == DATA_TYPE:
        registers = counted(entry.length, "{} register", "{} registers")
        if entry.length * REGISTER > len(data):
            raise Damaged(entry.at + LENGTH, f"{registers} in {entry.name}", f"at most {len(data) // REGISTER}, which fit "
                          f"into its {entry.records} records")
        return Part(entry.name, DATA, data[:entry.length * REGISTER], [f"{registers} of data, no program"])
    if entry.kind == TEXT_TYPE:
        return Part(entry.name, LISTING, "".join(f"{line}\n" for line in texts_of(data, begin)).encode())
    return Part(entry.name, OTHER, data, [f"type {entry.kind:04X}{', ' + TYPES[entry.kind] if entry.kind in TYPES else ''}: no program"])


def program_of(entry: Entry, data: bytes, begin: int) -> bytes:
    """Returns the bytes of a program, without the checksum after them, which must be right."""
    length = entry.length
    if not 0 < length < len(data):
        raise Damaged(entry.at + LENGTH, f"{counted(length, '{} byte', '{} bytes')} in the program {entry.name}",
                      f"1 to {max(len(data) - 1, 1)}, which fit with a checksum into {len(data)} bytes")
    if data[length] != sum_of(data[:length]):
        raise Damaged(begin + length, f"{data[length]:02X} as the checksum of {entry.name}",
                      f"{sum_of(data[:length]):02X}, the sum of its {length} bytes")
    return data[:length]


def texts_of(data: bytes, begin: int) -> List[str]:
    """Returns the lines of a text: each has its length in two bytes before it, and a null after it if the length is odd."""
    lines: List[str] = []
    at = 0
    while at + 2 <= len(data):
        length = number_in(data, at, 2)
        if length == END_OF_TEXT:
            return lines
        if at + 2 + length > len(data):
            raise Damaged(begin + at, f"a line of {length} characters", f"at most {len(data) - at - 2}, up to the end of this text")
        lines.append(data[at + 2:at + 2 + length].decode("latin-1"))
        at += 2 + length + length % 2
    return lines


def read_headed(data: bytes) -> List[Part]:
    """Returns the program after an entry of a directory. A checksum may follow the program, and nulls up to a whole record."""
    if len(data) <= ENTRY:
        raise Damaged(len(data), "the end of the file", f"a head of {ENTRY} bytes and a program")
    kind = number_in(data, NAME, 2)
    if kind != PROGRAM_TYPE:
        raise Damaged(NAME, f"the type {kind:04X}", f"{PROGRAM_TYPE:04X}, a program")
    entry, body = entry_at(data, 0), data[ENTRY:]
    if not 0 < entry.length <= len(body):
        raise Damaged(LENGTH, f"{entry.length} as the number of the program's bytes", f"1 to {len(body)}, the bytes after the head")
    rest = body[entry.length:]
    if rest.strip(b"\0") or len(rest) == 1:
        program_of(entry, body, ENTRY)
        rest = rest[1:]
    elif ends_of(body[:entry.length])[-1:] != [entry.length]:
        raise Damaged(LENGTH, f"{entry.length} as the number of the program's bytes, and no checksum after them",
                      "a number that leads to an END")
    if rest.strip(b"\0"):
        at = ENTRY + len(body) - len(rest.lstrip(b"\0"))
        raise Damaged(at, f"{data[at]:02X}", "nulls alone after the checksum")
    return [Part(entry.name, PROGRAM, body[:entry.length])]


# Writing.

def entry(name: str, start: int, records: int, length: int) -> bytes:
    """Returns the entry of a program, without a time."""
    return (name.encode().ljust(NAME) + number(PROGRAM_TYPE, 2) + number(start, 4) + number(records, 4) + bytes(6)
            + number(LAST_VOLUME, 2) + number(length, 2) + bytes(2))


def records_for(data: bytes) -> int:
    """Returns how many records a program with its checksum needs."""
    return (len(data) + RECORD) // RECORD


def padded(data: bytes) -> bytes:
    """Returns a program with its checksum, and nulls up to a whole record."""
    return (data + bytes([sum_of(data)])).ljust(records_for(data) * RECORD, b"\0")


def write_headed(programs: List[bytes]) -> bytes:
    """Returns a program after its entry, with its checksum, in whole records."""
    data = programs[0]
    return entry(names_for(programs, 7)[0], 0, records_for(data), len(data)) + padded(data)


def write_image(programs: List[bytes], label: str = "HP41", size: Optional[int] = None) -> bytes:
    """Returns an image with a file for each program. With `size`, it has so many records, and the free ones are nulls."""
    directory = (len(programs) + RECORD // ENTRY) // (RECORD // ENTRY)
    start, entries, body = 2 + directory, b"", b""
    for name, data in zip(names_for(programs, 7), programs):
        entries += entry(name, start, records_for(data), len(data))
        body += padded(data)
        start += records_for(data)
    entries = (entries + b"\xff" * ENTRY).ljust(directory * RECORD, b"\xff")
    head = (VOLUME + label.encode().ljust(6) + number(2, 4) + SYSTEM + bytes(2) + number(directory, 4) + number(1, 2) + bytes(2)
            + number(1, 4) + number(1, 4) + number(max(size or 0, start), 4))
    return (head.ljust(HEAD, b"\0") + entries + body).ljust((size or 0) * RECORD, b"\0")
