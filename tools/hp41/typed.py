"""The keys that type names, texts, numbers and program lines, from the table in keyboard.py. The bench decides whether keys really type a
line.

If words name keys, a text in quotes means ALPHA, the keys of its letters and ALPHA again, and a number means its keys: `XEQ "QUAD"`,
`-1.5E-3 ENTER`. If ALPHA is on already, or a name is being typed, a text means its letters alone: see alpha.py."""
import re
from typing import Optional

from .keyboard import KEYS
from .matches import whole

LONGEST_NAME = 7

# The key of each letter, and the keys that type their own names after SHIFT.
LETTERS = {key.letter: key.name for key in KEYS.values() if key.letter}
OWN = set("0123456789+-*/.")

# Functions whose key has another name.
OTHERWISE = {"SIGMA+": "S+", "ENTER": "ENTER^"}
# Functions that keys have in ALPHA mode, and functions that are typed as STO and a sign.
WITH_ALPHA = {"ASTO": ["SHIFT", "STO"], "ARCL": ["SHIFT", "RCL"], "AVIEW": ["SHIFT", "R/S"], "CLA": ["SHIFT", "BACK"]}
BEHIND_STO = {f"ST{sign}": ["STO", sign] for sign in "+-*/"}
# Lines that a key types in program mode, and whose functions no key has outside of it.
IN_PROGRAM_MODE = {"STOP": ["R/S"]}
OF_ONE_DIGIT = ("FIX", "SCI", "ENG")
NO_FUNCTIONS = {"ON", "USER", "PRGM", "ALPHA", "SHIFT", "SST", "BST", "EEX", "BACK", "R/S", "."}

OPERATED = re.compile(r"(\S+) (IND )?([0-9]{2}|[A-Z])")
LABELLED = re.compile(r'(XEQ|GTO|LBL) "(.*)"')
LOCAL = re.compile(r"(XEQ|GTO|LBL) ([A-J])")

NUMBER = re.compile(r"(-?)([0-9]*\.?[0-9]*)(?:E(-?)([0-9]{1,2}))?")
# A number line that keys type: its mantissa may be a point alone, or its exponent may have no digit yet. Before E a digit is needed.
NUMBER_LINE = re.compile(r"-?(?:(?=\.?[0-9])[0-9]*\.?[0-9]*(?:E-?[0-9]{0,2})?|\.)")
# The line of a minus alone, and its keys.
MINUS_ALONE, MINUS_KEYS = "NEG", ["1", "CHS", "BACK"]
# A number as other programs and people write it: with a comma, a small e, or a plus.
OTHER_NUMBER = re.compile(r"([+-]?)([0-9]*[.,]?[0-9]*)(?:[eE]([+-]?)([0-9]+))?")
WORD = re.compile(r'"[^"]*"?|[^ \t"]+')


class NoKeys(Exception):
    """The reason why there are no keys."""


def letter_keys(letter: str) -> list[str]:
    """Returns the keys that type a letter in ALPHA mode; an empty list if no key does."""
    if letter in LETTERS:
        return [LETTERS[letter]]
    return ["SHIFT", letter] if letter in OWN else []


def characters(text: str) -> list[str]:
    """Returns the characters of a text; some are written as a backslash and two digits."""
    return re.findall(r"\\[0-9A-F]{2}|.", text, re.S)


def untyped(text: str) -> list[str]:
    """Returns the characters of a text that no key types."""
    return list(dict.fromkeys(letter for letter in characters(text) if not letter_keys(letter)))


class Text(str):
    """A text in quotes among keys, without its quotes."""


def letters_of(text: str) -> list[str]:
    """Returns the keys of the letters of a text."""
    if untyped(text):
        has_capitals = text != text.upper() and not untyped(text.upper())
        raise NoKeys(f"no key writes {' '.join(untyped(text))}{f': write {text.upper()} in capitals' if has_capitals else ''}")
    return [key for letter in text for key in letter_keys(letter)]


def why_no_key(name: str) -> str:
    """Returns that no key has a name, and what to write for it."""
    is_typed = name.isalpha() and not untyped(name.upper())
    letters = f'; to press its letters, write it in quotes, "{name.upper()}"' if is_typed else ""
    return f"no key is named {name}: `tools/keyboard text` shows the names{letters}"


def text_keys(text: str) -> list[str]:
    """Returns the keys of a text, between two ALPHA."""
    return ["ALPHA", *letters_of(text), "ALPHA"]


def why_no_name(name: str) -> str:
    """Returns why no keys type a name of a label; an empty text if some do."""
    if len(characters(name)) > LONGEST_NAME:
        return f"{len(characters(name))} characters"
    if untyped(name):
        return f"no key writes {' '.join(untyped(name))}"
    return f"XEQ {name} on the keyboard calls the local label {name}" if re.fullmatch("[A-J]", name) else ""


def is_number(word: str) -> bool:
    """Returns whether a word is a number that keys type: its mantissa has a digit."""
    found = NUMBER.fullmatch(word)
    return found is not None and re.search("[0-9]", found[2]) is not None


def is_number_line(text: str) -> bool:
    """Returns whether a line is a number that keys type character by character, if it is not too long."""
    return text == MINUS_ALONE or NUMBER_LINE.fullmatch(text) is not None


def number_line_keys(text: str) -> list[str]:
    """Returns the keys of a number line. CHS follows the mantissa, or EEX."""
    if text == MINUS_ALONE:
        return MINUS_KEYS
    mantissa, has_exponent, exponent = text.removeprefix("-").partition("E")
    keys = [*mantissa, *["CHS"] * text.startswith("-")]
    return [*keys, "EEX", *(["CHS"] * exponent.startswith("-")), *exponent.removeprefix("-")] if has_exponent else keys


def is_other_number(word: str) -> bool:
    """Returns whether a word is a number that no keys type as it is, such as 1,5 or 1e5."""
    found = OTHER_NUMBER.fullmatch(word)
    return not is_number(word) and found is not None and re.search("[0-9]", found[2]) is not None


def why_no_number(word: str) -> str:
    """Returns what to type for a number that no keys type as it is."""
    sign, mantissa, exponent_sign, exponent = whole(OTHER_NUMBER, word).groups()
    end = "" if exponent is None else f"E{exponent_sign.replace('+', '')}{exponent}"
    typed = f"{sign.replace('+', '')}{mantissa.replace(',', '.')}{end}"
    if not is_number(typed):
        return f"no keys type the number {word}: an exponent has two digits"
    return f"no keys type the number {word}: write {typed}"


def is_label_next(keys: list[str]) -> bool:
    """Returns whether keys end with one that asks for a label: XEQ, GTO or LBL."""
    return keys[-1:] == ["XEQ"] and keys[-2:-1] != ["SHIFT"] or \
        keys[-2:-1] == ["SHIFT"] and keys[-1] in KEYS and KEYS[keys[-1]].shifted in ("GTO", "LBL")


def check_name(name: str) -> None:
    """Raises NoKeys if the name of a label has too many letters for the keys."""
    if len(characters(name)) > LONGEST_NAME:
        raise NoKeys(f'"{name}" has {len(characters(name))} letters: a label has at most seven letters')


def pieces_of(text: str) -> list[str]:
    """Returns the names of the keys for some words, with each text as one piece. A word that is neither a text nor a number is not
    changed."""
    pieces: list[str] = []
    for word in WORD.findall(text):
        if word.startswith('"'):
            if len(word) < 2 or not word.endswith('"'):
                raise NoKeys(f"the closing quote is missing: {word}")
            if is_label_next(pieces):
                check_name(word[1:-1])
            letters_of(word[1:-1])
            pieces.append(Text(word[1:-1]))
        elif word not in KEYS and is_number(word):
            pieces += number_line_keys(word)
        elif word not in KEYS and is_other_number(word):
            raise NoKeys(why_no_number(word))
        else:
            pieces.append(word)
    return pieces


def keys_of(text: str) -> list[str]:
    """Returns the names of the keys for some words, if ALPHA is off before each text. alpha.py has those for any state."""
    return [key for piece in pieces_of(text) for key in (text_keys(piece) if isinstance(piece, Text) else [piece])]


def is_spelled(word: str) -> bool:
    """Returns whether a word is not the name of a key, but a number or the beginning of a text."""
    return word not in KEYS and (word.startswith('"') or is_number(word) or is_other_number(word))


# Lines.

def function_keys(name: str) -> list[str]:
    """Returns the keys of a function: its own, or XEQ and its name in letters."""
    for key in KEYS.values():
        if OTHERWISE.get(key.name, key.name) == name and not key.name.isdecimal() and key.name not in NO_FUNCTIONS:
            return [key.name]
        if key.shifted == name and name not in NO_FUNCTIONS:
            return ["SHIFT", key.name]
    return BEHIND_STO.get(name) or ["XEQ", *text_keys(name)]


def operand_keys(name: str, indirect: Optional[str], operand: str) -> list[str]:
    """Returns the keys of an operand."""
    keys: Optional[list[str]] = list(operand)
    wanted = "digits, or X, Y, Z, T or L"
    if not operand.isdecimal():
        keys = [".", LETTERS[operand]] if operand in "TZYXL" else None
    elif name in OF_ONE_DIGIT and not indirect:
        keys, wanted = list(operand[1:]) if operand[0] == "0" else None, "one digit"
    if keys is None:
        raise NoKeys(f"no key types the operand {operand}: expected {wanted}")
    return ["SHIFT"] * bool(indirect) + keys


def line_keys(text: str) -> list[str]:
    """Returns the keys of a line."""
    if is_number_line(text):
        return number_line_keys(text)
    if text in IN_PROGRAM_MODE:
        return IN_PROGRAM_MODE[text]
    if text.startswith('>"'):
        alpha, *letters = text_keys(text[2:-1])
        return [alpha, "SHIFT", "XEQ", *letters]
    if text.startswith('"'):
        return text_keys(text[1:-1])
    labelled = LABELLED.fullmatch(text) or LOCAL.fullmatch(text)
    if labelled:
        check_name(labelled[2])
        return [*function_keys(labelled[1]), *text_keys(labelled[2])]
    operated = OPERATED.fullmatch(text)
    name = operated[1] if operated else text
    front = WITH_ALPHA.get(name) or function_keys(name)
    if operated and front[0] == "XEQ" and name != "XEQ":
        raise NoKeys(f"no key has {name}, and XEQ cannot give it an operand")
    keys = front + (operand_keys(*operated.groups()) if operated else [])
    return ["ALPHA", *keys, "ALPHA"] if name in WITH_ALPHA else keys
