#!/usr/bin/env python3
"""Makes an archive of programs in all containers and spellings, with damaged and doubtful files among them, and says what each file is.

usage: benchmarks/archives.py [--seed N] [--count N] [--damaged N] [--doubtful N] FOLDER

The same numbers always give the same files. FOLDER gets the files and `manifest.json`: for each file its kind, its state (`in`, `in, with
doubts` or `not in`), what is wrong with it, and the lines of its programs, each with its END."""
import argparse
import json
import os
import random
import re
import sys
from collections.abc import Callable, Iterable
from typing import Any, Union

TOP = os.path.join(os.path.dirname(os.path.realpath(__file__)), "..")
sys.dont_write_bytecode = True
sys.path.insert(0, f"{TOP}/tools")

from hp41.containers import packed  # noqa: E402
from hp41.exchange import WRITERS  # noqa: E402
from hp41.lif import write_image  # noqa: E402
from hp41.records import sum_of  # noqa: E402

# A line: its bytes and its text. What makes one or several lines.
Line = tuple[bytes, str]
Maker = Callable[[random.Random], Union[Line, list[Line]]]

IN, DOUBTFUL, NOT_IN = "in", "in, with doubts", "not in"
END = bytes.fromhex("C0000D")
LETTERS = "BDFGHKLMNPQRSTVWXZ"
LISTINGS = ("txt", "numbered", "free42", "lower", "symbols", "loose")
BYTES = ("raw", "sum", "head", "p41", "lif", "dat", "hex", "bars", "two", "pair")
KINDS = tuple(kind for both in zip(BYTES, (*LISTINGS, *LISTINGS)) for kind in both)

# One-byte functions that archives spell otherwise, with their codes.
PLAIN = {"+": 0x40, "-": 0x41, "*": 0x42, "/": 0x43, "X^2": 0x51, "SQRT": 0x52, "CHS": 0x54, "X<>Y": 0x71, "RDN": 0x75, "ENTER^": 0x83,
         "CLX": 0x77, "LASTX": 0x76, "AVIEW": 0x7E, "PSE": 0x89, "ABS": 0x61, "INT": 0x68, "X<=Y?": 0x46, "X>Y?": 0x45}
SYMBOLS = {"X^2": "X↑2", "ENTER^": "ENTER↑", "X<=Y?": "X≤Y?", "SQRT": "√X", "RDN": "R↓"}


def function(random_: random.Random) -> Line:
    """A line of one byte."""
    text = random_.choice(sorted(PLAIN))
    return bytes([PLAIN[text]]), text


def text_line(random_: random.Random) -> Line:
    """A text."""
    text = "".join(random_.choice("ABCDEFGHIJKLM NOPQ.,:?") for _ in range(random_.randint(1, 15)))
    return bytes([0xF0 + len(text)]) + text.encode(), f'"{text}"'


def number(random_: random.Random) -> Line:
    """A number that a calculator types like this."""
    text = random_.choice([str(random_.randint(0, 99999)), f"{random_.randint(0, 99)}.{random_.randint(1, 999)}",
                           f"{random_.randint(1, 9)}E-{random_.randint(1, 9)}"])
    return bytes({".": 0x1A, "E": 0x1B, "-": 0x1C}.get(sign) or 0x10 + int(sign) for sign in text), text


def with_register(random_: random.Random) -> Line:
    """A line with a register."""
    register = random_.randint(16, 99)
    code, name = random_.choice([(0x90, "RCL"), (0x91, "STO"), (0x92, "ST+"), (0x98, "VIEW"), (0x9A, "ASTO"), (0x9B, "ARCL")])
    indirect = random_.random() < 0.2
    return bytes([code, register | (0x80 if indirect else 0)]), f"{name} {'IND ' if indirect else ''}{register}"


def short(random_: random.Random) -> Line:
    """A line with a register below 16, or a flag, in its shortest form."""
    register = random_.randint(0, 15)
    return random_.choice([(bytes([0x20 + register]), f"RCL {register:02}"), (bytes([0x30 + register]), f"STO {register:02}"),
                           (bytes([0xA8, register]), f"SF {register:02}"), (bytes([0xAC, register]), f"FS? {register:02}"),
                           (bytes([0x9C, register % 10]), f"FIX 0{register % 10}")])


def jump(random_: random.Random) -> list[Line]:
    """A label and a jump to it."""
    label = random_.randint(0, 9)
    return [(bytes([label + 1]), f"LBL 0{label}"), function(random_), (bytes([0xB1 + label, 0]), f"GTO 0{label}")]


def program(random_: random.Random, names: set[str]) -> list[Line]:
    """A program: its lines, each with its bytes and its text, and its END at the end."""
    label = "".join(random_.choice(LETTERS) for _ in range(random_.randint(3, 6)))
    while label in names:
        label = "".join(random_.choice(LETTERS) for _ in range(random_.randint(3, 6)))
    names.add(label)
    found = [(bytes([0xC0, 0, 0xF1 + len(label), 0]) + label.encode(), f'LBL "{label}"')]
    for _ in range(random_.randint(3, 60)):
        makers: list[Maker] = [function, text_line, number, with_register, short, jump]
        made = random_.choice(makers)(random_)
        more = made if isinstance(made, list) else [made]
        # A null separates two numbers, so there are none in a row.
        if not (is_number(found[-1][1]) and is_number(more[0][1])) and not any(text.startswith("LBL 0") and (data, text) in found for data,
                                                                               text in more):
            found += more
    return [*found, (END, "END")]


def is_number(text: str) -> bool:
    """Returns whether a line is a number."""
    return re.fullmatch(r"[-0-9.E]+", text) is not None


def bytes_of(lines: Iterable[Line]) -> bytes:
    """Returns the bytes of a program."""
    return b"".join(data for data, _ in lines)


def loosely(text: str, random_: random.Random) -> str:
    """Returns a line in a spelling that people type: other case, spaces, and one digit in place of two."""
    if '"' in text:
        return text
    text = re.sub(r" 0(\d)\Z", r" \1", text) if random_.random() < 0.5 else text
    return f"{' ' * random_.randint(0, 4)}{text.lower() if random_.random() < 0.3 else text}{' ' * random_.randint(0, 2)}"


def listing(kind: str, lines: list[Line], random_: random.Random) -> tuple[str, list[str]]:
    """Returns the ending of the name of a listing, and its lines."""
    texts = [text for _, text in lines]
    if kind == "free42":
        return "txt", list(WRITERS["free42"]([(text, data) for data, text in lines]))
    if kind == "numbered":
        return "lst", [f"{at:02} {text}" for at, text in enumerate(texts, 1)]
    if kind == "lower":
        return "prg", [text if '"' in text else text.lower() for text in texts]
    if kind == "symbols":
        return "txt", [SYMBOLS.get(text, text) for text in texts]
    if kind == "loose":
        return "txt", ["# a comment", *(loosely(text, random_) for text in texts)]
    return "txt", texts


def container(kind: str, programs: list[list[Line]]) -> tuple[str, bytes]:
    """Returns the ending of the name of a container, and its bytes."""
    data = [bytes_of(lines) for lines in programs]
    if kind in ("p41", "hex", "bars"):
        return kind, packed(kind, data)
    makers: dict[str, Callable[[], tuple[str, bytes]]] = {
        "raw": lambda: ("raw", data[0]), "sum": lambda: ("raw", data[0] + bytes([sum_of(data[0])])),
        "head": lambda: ("raw", packed("p41", data)), "lif": lambda: ("lif", write_image(data)),
        "dat": lambda: ("dat", write_image(data, "X", 40)), "two": lambda: ("lif", write_image(data)),
        "pair": lambda: ("raw", b"".join(data))}
    return makers[kind]()


# Damage.

def damaged_listing(kind: str, lines: list[str], random_: random.Random) -> tuple[list[str], str]:
    """Returns a listing with an error, and what it is."""
    at, choice = random_.randrange(2, len(lines) - 1), random_.randrange(5)
    number_of_line = re.match(r"\s*(?:\d+[ ▸]\s*)?", lines[at]) if kind in ("numbered", "free42") else None
    before = number_of_line[0] if number_of_line else ""
    if kind == "free42" and choice < 2:
        return [lines[0].replace("-Byte", "0-Byte"), *lines[1:]], "a count"
    bad, why = [('"TEXT', "a quote"), ("RCL", "an operand"), ("FLYAWAY", "a name"), ('"MORE THAN 15 LETTERS"', "a long text"),
                ("STO 1000", "an operand")][choice]
    return [*lines[:at], before + bad, *lines[at + 1:]], why


def damaged_bytes(kind: str, data: bytes, lines: list[Line], random_: random.Random) -> tuple[bytes, str]:
    """Returns a container with an error, and what it is."""
    body = 32 if kind in ("head", "p41") else 768
    if kind in ("raw", "pair"):
        at = len(lines[0][0])
        cut = data[:at] + bytes([0xF7]) + b"ABC"
        return random_.choice([(data[:at] + b"\xaf" + data[at:], "a byte"), (data[:at] + b"\xc1\x00\xf0" + data[at:], "a byte"),
                               (cut, "a cut line"), (b"", "no bytes")])
    if kind == "sum":
        return data[:-1] + b"\xaf\x33", "bytes after the END"
    if kind == "hex":
        text = data.decode()
        text, why = random_.choice([(text.replace("C0", "G0", 1), "a digit"), (text.rstrip()[:-1] + "\n", "half a byte")])
        return text.encode(), why
    if kind == "bars":
        rows = data.decode().splitlines()
        without_first = "\n".join(rows[1:]) if rows[1:] else "Row 1: 00"
        text, why = random_.choice([("\n".join(["Row 1: 00" + rows[0][9:], *rows[1:]]), "a checksum"), (without_first, "a row")])
        return text.encode(), why
    at = body + random_.randrange(6, 12)
    cut = data[:body + 3] if kind in ("head", "p41") else data[:700]
    return random_.choice([(data[:at] + bytes([data[at] ^ 0x11]) + data[at + 1:], "a changed byte"), (cut, "a cut file")])


# Doubts.

def doubtful(kind: str, lines: list[Line], random_: random.Random) -> tuple[list[Line], str]:
    """Returns the lines of a program with a doubt, and its name."""
    at = random_.randrange(1, len(lines))
    while is_number(lines[at - 1][1]) or is_number(lines[at][1]):
        at = random_.randrange(1, len(lines))
    found = [("call", (b"\x1e\xf6NOWHER", 'XEQ "NOWHER"')), ("call", (b"\xd0\x00\x4d", "GTO 77")), ("operand", (b"\xa8\x2d", "SF 45")),
             ("operand", (b"\x9f\x39", "TONE 57")), ("character", (b"\xf3A{B", '"A{B"'))]
    name, line = found[random_.randrange(4 if kind in BYTES else 5)]
    return [*lines[:at], line, *lines[at:]], name


def made_file(kind: str, state: str, number_: int, random_: random.Random, names: set[str]) -> tuple[str, bytes, str, list[list[str]]]:
    """Returns a file: the ending of its name, its bytes, what is wrong with it, and the lines of its programs."""
    programs, why = [program(random_, names) for _ in range(2 if kind in ("two", "pair") else 1)], ""
    if state == DOUBTFUL:
        # In a short listing, a wrong number may mean that the numbers are no line numbers.
        skips_number = kind == "numbered" and number_ % 2 and len(programs[0]) > 16
        programs[0], why = doubtful(kind, programs[0], random_) if not skips_number else (programs[0], "line-number")
    if kind in BYTES:
        ending, data = container(kind, programs)
        if state == NOT_IN:
            data, why = damaged_bytes(kind, data, programs[0], random_)
    else:
        ending, rows = listing(kind, programs[0], random_)
        if state == NOT_IN:
            rows, why = damaged_listing(kind, rows, random_)
        if why == "line-number":
            rows = [*rows[:-2], re.sub(r"\A\d+", lambda found: f"{int(found[0]) + 1:02}", rows[-2]), rows[-1]]
        data = "".join(f"{row}{chr(13) if kind == 'numbered' else ''}\n" for row in rows).encode()
    return ending, data, why, [[text for _, text in lines] for lines in programs]


def make(folder: str, count: int = 500, damaged: int = 50, doubtful_: int = 50, seed: int = 41) -> list[dict[str, Any]]:
    """Makes an archive in a folder. Returns the manifest."""
    random_ = random.Random(seed)
    names: set[str] = set()
    manifest: list[dict[str, Any]] = []
    special = random_.sample(range(count), damaged + doubtful_)
    states = {**dict.fromkeys(special[:damaged], NOT_IN), **dict.fromkeys(special[damaged:], DOUBTFUL)}
    for at in range(count):
        kind, state = KINDS[at % len(KINDS)], states.get(at, IN)
        ending, data, why, programs = made_file(kind, state, at, random_, names)
        path = f"{at:05}-{kind}.{ending}"
        with open(os.path.join(folder, path), "wb") as file:
            file.write(data)
        manifest.append({"file": path, "kind": kind, "state": state, "why": why, "programs": programs})
    return manifest


def main() -> None:
    """Makes an archive, and its manifest."""
    parser = argparse.ArgumentParser(description=__doc__, formatter_class=argparse.RawDescriptionHelpFormatter)
    for name, default in (("--seed", 41), ("--count", 500), ("--damaged", 50), ("--doubtful", 50)):
        parser.add_argument(name, type=int, default=default)
    parser.add_argument("folder", metavar="FOLDER")
    options = parser.parse_args()
    os.makedirs(options.folder, exist_ok=True)
    manifest = make(options.folder, options.count, options.damaged, options.doubtful, options.seed)
    with open(os.path.join(options.folder, "manifest.json"), "w", encoding="utf-8") as file:
        json.dump(manifest, file, ensure_ascii=False, indent=0)


if __name__ == "__main__":
    main()
