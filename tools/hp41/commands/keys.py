"""Prints the keys that type program lines.

usage: tools/keys LINE..

Prints a line with the names of the keys for each LINE, for example 'XEQ "QUAD"', 'STO IND 05', 'X<=Y?' or -1.5E-3:
    XEQ ALPHA - + SIGMA+ LOG ALPHA
A LINE is spelled as in a listing for tools/import. A function that is on no key is called by XEQ and its name. If LINE is not a
program line, it is read as keys: a text in quotes means its letters between two ALPHA, and a number means its keys, for example
'7.201969 XEQ "DOW" R/S'. If ALPHA is on already or a name is being typed, as in 'ALPHA "HI" ALPHA', a text means its letters alone.
The `key` lines of decks for the other tools may contain such texts and numbers.

./bench tries the keys of each line: in program mode they must insert this line and no other.

Status 0: all keys are printed. 1: a LINE has no keys, and standard error says why. 2: the command line is wrong. 3: the keys
cannot be written. 70: the bench gave no answer."""
import sys
from typing import Union

from ..alpha import Row, resolve
from ..coded import inserted
from ..decks import Failure, answered, end_with_reader, shown
from ..functions import Functions
from ..keyboard import KEYS
from ..listings import Listing
from ..spellings import read_tables
from ..typed import LABELLED, NoKeys, Text, line_keys, pieces_of


# A line of the bench, and its keys.
Typed = tuple[str, list[str]]


def is_same(text: str, line: str) -> bool:
    """Returns whether an inserted line is the intended one. XEQ of the name of a function is inserted as the function."""
    called = LABELLED.fullmatch(text)
    return line == text or called is not None and called[1] == "XEQ" and line == called[2]


def of_line(line: str, text: str) -> Union[Typed, Row]:
    """Returns a line of the bench with its keys; or the keys that the line names, if no keys type it."""
    try:
        return text, line_keys(text)
    except NoKeys as why:
        try:
            pieces = pieces_of(line)
        except NoKeys:
            raise why from None
        if '"' in line and all(isinstance(piece, Text) or piece in KEYS for piece in pieces):
            return Row(pieces)
        raise


def press(rows: dict[str, Row]) -> dict[str, list[str]]:
    """Presses the keys of each row in an empty calculator, and returns them. A text that follows ALPHA or an open name is its letters
    alone."""
    deck = [b"reset\n", b"key\n"] * len(rows)
    resolve(deck, {2 * at + 1: row for at, row in enumerate(rows.values())},
            lambda asked: {first: answer for first, _, answer in answered(asked)[1]})
    return {line: row.keys() for line, row in rows.items()}


def keys_for(lines: list[str]) -> list[Union[list[str], NoKeys]]:
    """Returns the keys of each line, or the reason why it has none."""
    functions = Functions(read_tables())
    listing = Listing(lines, has_numbers=False, functions=functions)
    found: dict[str, Union[list[str], NoKeys]] = {}
    rows: dict[str, Row] = {}
    tried: dict[str, Typed] = {}
    bad = {number: reason for number, _, reason in listing.bad}
    for number, (line, text) in enumerate(zip(lines, listing.texts), 1):
        try:
            if not line.strip():
                raise NoKeys("found nothing, expected a program line or names of keys")
            if text.startswith("XROM "):
                name = f'XEQ "{functions.names[text]}"' if text in functions.names else "XEQ and its name"
                raise NoKeys(f"a function of a module: plug the module, then type {name}")
            read = Row(pieces_of(line)) if number in bad else of_line(line, text)
            if isinstance(read, tuple):
                tried[line] = read
            elif number in bad and not all(key in KEYS for key in read.keys()):
                unknown = next(key for key in read.keys() if key not in KEYS)
                raise NoKeys(f"neither a program line nor names of keys: {bad[number] or f'no key is named {unknown}'}")
            else:
                rows[line] = read
        except NoKeys as why:
            found[line] = why
    found.update(press(rows))
    for (line, (text, keys)), texts in zip(tried.items(), inserted([keys for _, keys in tried.values()])):
        is_typed = isinstance(texts, list) and len(texts) == 1 and is_same(text, texts[0])
        what = (f"are refused ({texts.removeprefix('! ')})" if isinstance(texts, str) else
                f"insert {' and '.join(f'`{one}`' for one in texts) or 'no line'}")
        found[line] = keys if is_typed else NoKeys(f"no keys type this line: {' '.join(keys)} {what}")
    return [found[line] for line in lines]


def main(words: list[str]) -> int:
    """Prints the keys of each line. Returns the status."""
    if words in (["-h"], ["--help"]):
        print(__doc__.strip())
        return 0
    option = next((word for word in words if word.startswith("--")), None)
    if not words or option:
        raise Failure(f"found {f'`{option}`' if option else 'nothing'}, expected program lines: tools/keys LINE..", 2)
    found = keys_for(words)
    end_with_reader()
    for number, (line, keys) in enumerate(zip(words, found), 1):
        if isinstance(keys, NoKeys):
            place = f"`{shown(line)}`" if line.strip() else f"word {number}"
            print(f"keys: {place}: {keys}", file=sys.stderr)
        else:
            print(*keys)
    return int(any(isinstance(keys, NoKeys) for keys in found))
