"""Writes the hash table that finds the words of a table.

usage: tools/places openings|functions|words

  openings   writes `PLACES` of crates/h41_asm/src/table.rt, for `OPENINGS`
  functions  writes `FUNCTION_PLACES` of crates/h41_text/src/places.rt, for `FUNCTIONS`
  words      writes `WORD_PLACES` of the same file, for `WORDS`

The hash of a word starts with a first number. Each byte is added to it, and the sum is multiplied by a factor, modulo 65536. The
upper 8 bits are the hash. If two words of a table have the same hash, choose other numbers for which no two words have. The
numbers are in TABLES below, and in `hash_of` of crates/h41_asm, src/opening.rt and specs/private/Openings.antt, or in `name_hash`
of crates/h41_text, src/places.rt and specs/private/Places.antt.

Status 0: the table is written. 1: two words have the same hash. 2: the command line is wrong."""
import os
import re
import sys

from .. import TOP

CRATES = os.path.join(TOP, "crates")
COUNT = 256
WIDTH = 100


def source(path: str) -> str:
    """Returns the text of a source of a crate."""
    with open(os.path.join(CRATES, path), encoding="utf-8") as text:
        return text.read()


def openings() -> list[str]:
    """Returns the words of `OPENINGS`."""
    table = source("h41_asm/src/table.rt").split("static OPENINGS", 1)[1].split("static PLACES", 1)[0]
    return re.findall(r'\(\s*"([^"]+)",\s*Opening::', table)


def listed(name: str) -> list[str]:
    """Returns the names that a macro of h41_text lists."""
    table = source("h41_text/src/names.rt").split(f"macro_rules! {name} ", 1)[1].split("macro_rules!", 1)[0]
    return re.findall(r'=> "([^"]+)",', table)


# The words of each table, and the two numbers of their hash.
TABLES = {
    "openings": (openings, 27371, 15327),
    "functions": (lambda: listed("functions"), 18352, 6855),
    "words": (lambda: ["GTO", "XEQ", "W", "XROM", *listed("parameter_functions")], 18352, 6855),
}


def hash_of(word: str, first: int, factor: int) -> int:
    """Returns the hash of a word."""
    number = first
    for byte in word.encode("ascii"):
        number = (number + byte) * factor % 0x10000
    return number // (0x10000 // COUNT)


def main() -> int:
    """Prints the table of places. Returns the status."""
    if sys.argv[1:] in (["-h"], ["--help"]):
        print(__doc__.strip())
        return 0
    if sys.argv[1:] not in [[table] for table in TABLES]:
        found = f"'{' '.join(sys.argv[1:])}'" if sys.argv[1:] else "nothing"
        print(f"places: found {found}, expected openings, functions or words; see --help", file=sys.stderr)
        return 2
    words, first, factor = TABLES[sys.argv[1]]
    places = [0] * COUNT
    names: dict[int, str] = {}
    for place, name in enumerate(words()):
        number = hash_of(name, first, factor)
        if number in names:
            print(f"places: '{name}' and '{names[number]}' have the same hash {number}: choose other numbers in TABLES", file=sys.stderr)
            return 1
        names[number] = name
        places[number] = place
    line = "   "
    for place in places:
        if len(f"{line} {place},") > WIDTH:
            print(line)
            line = "   "
        line += f" {place},"
    print(line)
    return 0
