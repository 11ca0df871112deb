"""Program lines with what belongs to them: the number that program mode shows, the bytes in memory, and the keys that type the line."""
import re
from typing import Iterable, Iterator, Optional, Sequence, Union

from .decks import answered
from .records import length_at
from .typed import LONGEST_NAME, NoKeys, is_number_line, line_keys, text_keys

# Bytes of which each is a digit, a sign, a point or an exponent of a number.
NUMBER = re.compile(rb"[\x10-\x1c]+")

ENDS = ("END", ".END.")


def bytes_at(data: bytes, at: int, end: int) -> bytes:
    """Returns the bytes of the line that begins at `at`, without the nulls after it. The next line begins at `end`."""
    number = NUMBER.match(data, at, end)
    return data[at:min(number.end() if number else at + length_at(data, at), end)] if at < len(data) else b""


def inserted(found: Iterable[list[str]]) -> Iterator[Union[list[str], str]]:
    """Yields the lines that keys insert in program mode, for each row of keys in empty memory; or the refusal of a key."""
    deck = "".join(f"reset\nkey PRGM\nkey {' '.join(keys)}\nshow lines\n" for keys in found).encode()
    for _, _, refusal, answer in zip(*[iter(answer for _, _, answer in answered(deck)[1])] * 4):
        yield refusal[-1].decode() if refusal else [line[5:].decode() for line in answer][:-1]


# The keys of the lines that were asked about last, in empty memory. No keys type .END., and no keys type an END between two programs.
KNOWN_AT_FIRST = {"END": "", ".END.": ""}
MOST_KNOWN = 4096
known = dict(KNOWN_AT_FIRST)

# The keys that add an END to the last program in memory, if this program has lines.
KEYS_OF_END = "SHIFT RCL . ."

# The keys of a line that is typed by its name, and names that are those of local labels.
BY_NAME, CALLED, LOCAL = "XEQ ALPHA ", re.compile('XEQ "(.*)"'), re.compile("[A-J]")


def keys_of(texts: Iterable[str]) -> dict[str, str]:
    """Returns the keys that type each of some lines in program mode, in empty memory without modules; an empty text if no keys do. The
    bench tries the keys, because those of a line such as `12345678912` insert another line."""
    wanted = set(texts)
    if len(known) > MOST_KNOWN:
        known.clear()
        known.update(KNOWN_AT_FIRST)
    tried: dict[str, list[str]] = {}
    for text in sorted(wanted - known.keys()):
        known[text] = ""
        try:
            tried[text] = line_keys(text)
        except NoKeys:
            continue
    known.update((text, " ".join(keys)) for (text, keys), lines in zip(tried.items(), inserted(tried.values())) if lines == [text])
    return {text: known[text] for text in wanted}


# What ends a number that is being typed, and changes nothing.
END_OF_NUMBER = "ALPHA ALPHA"


def apart(texts: list[str], found: list[list[str]]) -> list[list[str]]:
    """Returns the lines with keys that type each of them directly after the one before it: digits, and CHS, would change a number there."""
    for before, text, row in zip(texts, texts[1:], found[1:]):
        if row[2] and is_number_line(before) and (is_number_line(text) or text == "CHS"):
            row[2] = f"{END_OF_NUMBER} {row[2]}"
    return found


def keys_by_name(name: str) -> str:
    """Returns the keys of XEQ and a name; an empty text if no keys type the name, or if it is that of a local label."""
    if len(name) > LONGEST_NAME or LOCAL.fullmatch(name):
        return ""
    try:
        return " ".join(["XEQ", *text_keys(name)])
    except NoKeys:
        return ""


class Typing:
    """The keys that type lines where memory has labels, and modules have functions. What XEQ of a name types depends on both: it is XEQ of
    a label in memory, otherwise the first function of this name in the modules, otherwise the calculator's own function."""

    def __init__(self, texts: Sequence[str], functions: Iterable[str]) -> None:
        """Takes the texts of all lines in memory, and the lines of `show functions`."""
        self.labels = {text[5:-1] for text in texts if text.startswith('LBL "')}
        # The lines of functions by their names, of which the first one is found, and `-` means that a function has no name.
        self.called: dict[str, str] = {}
        for function in functions:
            line, _, name = function.replace(" ", "\0", 1).partition(" ")
            if name != "-":
                self.called.setdefault(name, line.replace("\0", " "))
        self.keys = keys_of(text for text in texts if not text.startswith("XROM "))

    def of(self, text: str) -> str:
        """Returns the keys that type a line; an empty text if no keys do."""
        if text.startswith("XROM "):
            names = [name for name, line in self.called.items() if line == text and name not in self.labels]
            return next(filter(None, map(keys_by_name, names)), "")
        keys, found = self.keys[text], CALLED.fullmatch(text)
        name = found[1] if found else text if keys.startswith(BY_NAME) else None
        if name in self.labels:
            return keys_by_name(name) if found else ""
        return "" if name in self.called else keys


def coded(lines: list[tuple[int, str]], data: bytes, typing: Optional[Typing] = None) -> list[list[str]]:
    """Returns for each line its number, its bytes and its keys, which are empty texts without `typing`. `lines` are pairs of a place in
    `data` and a text."""
    found: list[list[str]] = []
    number = 0
    ends = [place for place, _ in lines[1:]] + [len(data)]
    for (place, text), end in zip(lines, ends):
        number += 1
        found.append([f"{number:02}", bytes_at(data, place, end).hex(" ").upper(), typing.of(text) if typing else ""])
        if text in ENDS:
            number = 0
    if typing and [text for _, text in lines[-2:]] == list(ENDS) and lines[2:] and lines[-3][1] not in ENDS:
        found[-2][2] = KEYS_OF_END
    return apart([text for _, text in lines], found)
