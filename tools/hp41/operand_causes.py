"""Causes of a wrong operand in a source line, by what the instruction takes: signs around a number, letters in place of digits, a number
in another base or out of its range, a second operand, a comment without `;`. Only errors need this module."""
from __future__ import annotations

import re
from difflib import get_close_matches

from .dialects import FIELDS, LONG, OF_LABELS, OF_WORDS, REGISTERS, SHORT

Words = list[tuple[int, str]]
Cause = tuple[int, str]

GREATEST_WORD = 0x3FF
PLACES, DIGITS = ("CLRF", "SETF", "?FSET", "R=", "?R=", "RCR"), ("LD@R", "WRIT", "READ")
BITS, IN_MEMORY = ("CLRF", "SETF", "?FSET"), ("WRIT", "READ")

# Names of fields in other words.
OTHER_FIELDS = {"SX": "S&X", "S+X": "S&X", "SANDX": "S&X", "S/X": "S&X", "S_X": "S&X", "EXP": "S&X", "EXPONENT": "S&X", "EX": "S&X",
                "XP": "S&X",
                "MANTISSA": "M", "MANT": "M", "MAN": "M", "SIGN": "MS", "SGN": "MS", "SM": "MS", "WORD": "ALL", "A": "ALL", "FULL": "ALL",
                "R": "@R", "@P": "@R", "P": "@R", "AT": "@R", "<R": "R<", "R->": "R<", "WP": "R<", "TOR": "R<", "P_Q": "P-Q", "P..Q": "P-Q",
                "P:Q": "P-Q", "PTOQ": "P-Q", "XSIGN": "XS", "SX2": "XS", "S&XS": "XS"}
COMMENT = re.compile(r"//|--|/\*|\*|#|\(|'|!|\{|%|\||:|REM\b|\\")
LETTERS = str.maketrans("OoQlI|", "000111")
AROUND = re.compile(r"""([\[({<"'`]+)([^\[\](){}<>"'`]+)([\])}>"'`]*)""")
MARKED = re.compile(r"(?:#?(0[xX]|\$|&[hH]?|[hHxX]')|#|=|%|\*|@|R(?:EG)?|S|F|\.)?([0-9A-Fa-f]+)([hH]|[dD]|')?,?")
NAMES = {"LASTX": "L", "LAST": "L", "LSTX": "L", "ALPHA": "5", "FLAGS": "14"}


def kind_of(name: str, operations: list[str]) -> str:
    """Returns the kind of the operand of an instruction."""
    kinds = {**dict.fromkeys(PLACES, "place"), **dict.fromkeys(DIGITS, "digit"), **dict.fromkeys(OF_WORDS, "word"),
             **dict.fromkeys(LONG, "address"), **dict.fromkeys(SHORT, "displacement"), **dict.fromkeys(OF_LABELS, "label"), "NAME": "text"}
    return "field" if name in operations else kinds.get(name, "none")


def example(name: str, kind: str) -> str:
    """Returns a line that shows what an instruction takes."""
    return {"field": f"a field: {name} ALL, or another one of {' '.join(FIELDS)}", "place": f"a decimal number, 0 to 13: {name} 5",
            "digit": f"a decimal number, {'1' if name == 'READ' else '0'} to 15: {name} 5", "word": f"three hexadecimal digits: {name} 005",
            "address": f"a label or four hexadecimal digits: {name} :LOOP", "displacement": f"a label: {name} :LOOP",
            "label": f"a label: {name} :FIVE", "text": 'a name in quotes: NAME "KIT"'}.get(kind, "")


def cause_of(name: str, rest: Words, after: int, kind: str) -> Cause | None:
    """Returns the column and the cause for the operand of a line; None if it shows none. `rest` are the words after the instruction, and
    `after` is the column after it."""
    if not rest:
        return (after, f"the operand is missing: {name} takes {example(name, kind)}") if kind != "none" else None
    extra = of_extra(name, rest, kind)
    if extra or kind in ("none", "text"):
        return extra or (of_text(rest) if kind == "text" else of_none(name, rest))
    column, text = rest[0]
    readers = {"field": of_field, "place": of_number, "digit": of_number, "word": of_word, "address": of_target, "displacement": of_target,
               "label": of_target}
    why = readers[kind](name, "".join(word for _, word in rest))
    return (column, why) if why else None


def of_extra(name: str, rest: Words, kind: str) -> Cause | None:
    """Finds words after the operand, or a comment without `;`."""
    for column, text in rest[0 if kind == "none" else 1:]:
        if kind != "text" and COMMENT.match(text) and not re.match(r":[A-Za-z]|[*:]$|\(?:?[A-Z]\w*\)$", text):
            return column, f"a comment begins with ;: write ; before {text}"
    if kind in ("none", "text") or len(rest) < 2:
        return None
    column, text = rest[1]
    if rest[0][1].endswith(",") or text.startswith(","):
        return (rest[0][0] + len(rest[0][1]) - 1 if rest[0][1].endswith(",") else column), \
            f"found a comma, expected one operand: {name} takes {example(name, kind)}"
    if text.islower() and text.isalpha():
        return column, f"{name} has one operand; if {text} begins a comment, write ; before it"
    glued = "".join(word for _, word in rest)
    if glued in FIELDS or kind == "displacement" and rest[0][1] in ("+", "-", ":") or kind == "address" and rest[0][1] == ":":
        return rest[0][0], f"no space is inside the operand: write {name} {glued}"
    return column, f"found the second operand {text}, expected one: {name} takes {example(name, kind)}"


def of_none(name: str, rest: Words) -> Cause | None:
    """Finds an operand of an instruction that has none."""
    column, text = rest[0]
    use = {"RAM SLCT": "it selects the address in C, for example that of LDI 003 before it", "PRPH SLCT": "it selects the device in C",
           "PUSH ADR": "it pushes the address in C", "?KEY": "it tests whether a key is down, and C=KEY reads the code of the key",
           "RTN": "a function returns its result in registers"}.get(name)
    if text in FIELDS:
        return column, f"{name} has no field"
    if text == ":" or text[:1] in "|&":
        return None
    if text.islower() and text.isalpha() and text not in ("all", "x", "m"):
        return column, f"{name} has no operand; if {text} begins a comment, write ; before it"
    return column, f"found {text}, but {name} has no operand{f': {use}' if use else ''}"


def of_text(rest: Words) -> Cause | None:
    """Finds what is wrong with the name in a line NAME."""
    column, text = rest[0][0], " ".join(word for _, word in rest)
    found = re.fullmatch(r'"([^"]*)"(.*)', text)
    if found and found[2].strip():
        return column + len(found[1]) + 2, f"found {found[2].strip()} after the name, expected nothing: a comment begins with ;"
    if found and len(found[1]) > 11:
        return column, f"the name has {len(found[1])} characters, expected at most 11"
    if found and not found[1]:
        return column, "the name is empty, expected 1 to 11 characters"
    if not found and '"' in text:
        return column, f"found {text[:text.index(chr(34))].strip()} before the name, expected only the name in quotes: NAME \"KIT\""
    if not found:
        return column, f"a name is in double quotes: NAME \"{re.sub(r'[^A-Z0-9]', '', text.upper())[:11] or 'KIT'}\""
    return None


def of_field(name: str, text: str) -> str:
    """Returns what is wrong with a field."""
    bare = re.sub(r"^[\[({.,:=]+|[\])},.;]+$", "", text)
    upper = bare.upper()
    if text in ("X", "S", "W", "WPT", "PT", "PQ", "@PT"):
        return ""
    prefix = next((own for other, own in OTHER_FIELDS.items() if len(other) > 2 and upper.startswith(other[:3])), None)
    usual = prefix if upper.isalpha() and len(upper) > 3 else None
    own = upper if upper in FIELDS else OTHER_FIELDS.get(upper.replace(" ", "")) or usual
    if bare in FIELDS and bare != text:
        return f"a field is its name alone: write {name} {bare}"
    if own and own == upper and bare == text:
        return f"names of fields are in upper case: write {name} {own}"
    if own:
        return f"no field is named {text}: write {name} {own}"
    parts = [part for part in re.split(r"[,+|/ ]", upper) if part]
    if len(parts) > 1 and all(part in FIELDS for part in parts):
        return f"an instruction has one field: write a line for each of {' and '.join(parts)}"
    if bare.isdecimal():
        return (f"a field is a name: R= {bare} before it and the field @R for the digit at place {bare}" if int(bare) < 14 else
                f"no field is named {text}: expected one of {' '.join(FIELDS)}")
    near = get_close_matches(upper, FIELDS, 1, 0.6)
    return f"no field is named {text}{near and f', the nearest is {near[0]}' or ''}: expected one of {' '.join(FIELDS)}"


def marked(text: str) -> tuple[str, str, bool, bool]:
    """Returns the digits of a number without signs around it, these signs, and whether they mean hexadecimal or decimal digits."""
    inner = AROUND.fullmatch(text)
    found = MARKED.fullmatch(inner[2] if inner else text)
    if not found:
        return "", "", False, False
    signs = (inner[1] if inner else "") + text[len(inner[1] if inner else ""):].partition(found[2])[0]
    return found[2], signs or (found[3] or "") or text[len(found[2]):], bool(found[1]) or found[3] in ("h", "H"), found[3] in ("d", "D")


def written(name: str, digits: str) -> str:
    """Returns an instruction with a decimal number."""
    return "READ DATA" if name == "READ" and not int(digits) else f"{name} {int(digits)}"


def of_digits(name: str, text: str, value: int, most: int, takes: str) -> str:
    """Returns what is wrong with a number in hexadecimal digits, which has a value, and what to write if the value is in range."""
    if value > most or name == "READ" and not value:
        return f"{text} is {value} in decimal, which is out of range: {takes}"
    return f"{takes}: write {written(name, str(value))}"


def of_equate(name: str, equate: str, value: str, place: str) -> str:
    """Returns why an instruction does not take the value of an equate, which is defined at a place."""
    kind = "the decimal number" if len(value) < 3 else "the word" if len(value) == 3 else "the address"
    number = int(value) if len(value) < 3 else int(value, 16)
    what = f":{equate} is {kind} {value} ({place})"
    if name in LONG:
        return f'{what}: for an address write {equate} = "{number:04X}"'
    if name in OF_WORDS:
        return (f'{what}: for a word write {equate} = "{number:03X}"' if number <= GREATEST_WORD else
                f"{what}, above 3FF, the greatest word of ten bits")
    most = 13 if name in PLACES else 15
    takes = f"{name} takes a decimal number, {'1' if name == 'READ' else '0'} to {most}"
    if name == "READ" and not number:
        return f"{what}: the word for 0 is READ DATA"
    if number > most:
        return f"{what}{f', {number} in decimal' if len(value) > 2 else ''}, which is out of range: {takes}"
    return f"{what}: {takes}: write {equate} = {number}"


def of_number(name: str, text: str) -> str:
    """Returns what is wrong with a decimal number."""
    most = 13 if name in PLACES else 15
    takes = f"{name} takes a decimal number, {'1' if name == 'READ' else '0'} to {most}"
    text = text if len(text) == 1 else text.rstrip(",;.")
    if text in REGISTERS and name in IN_MEMORY and text not in "abcde+" and text != "A" or text.upper() in NAMES:
        number = REGISTERS.index(NAMES[text.upper()]) if NAMES.get(text.upper(), "") == "L" else NAMES.get(text.upper())
        return f"{text} is register {number}: write {name} {number}" if number is not None else ""
    if name in IN_MEMORY and text in ("A", "B", "C", "M", "N", "G"):
        what = "which it reads into C" if name == "READ" else "to which it writes C"
        return f"{text} is not in memory: {name} takes the number of a register of memory, {what}"
    digits, signs, is_hexadecimal, _ = marked(text)
    confused = text.translate(LETTERS)
    if name == "READ" and (digits if digits.isdecimal() else confused).strip("0") == "":
        return "the word for 0 is READ DATA"
    if confused != text and confused.isdecimal() and int(confused) <= most:
        return f"{text} has a letter in place of a digit: write {written(name, confused)}"
    if digits and (is_hexadecimal or not digits.isdecimal() and not re.fullmatch("[0-9]+d", digits)):
        return of_digits(name, text, int(digits, 16), most, takes)
    if digits and digits.isdecimal() and signs and int(digits) <= most:
        return f"found {text}, expected the number alone: write {written(name, digits)}"
    if digits and digits.isdecimal() and not signs and int(digits) <= most and digits[0] == "0" and len(digits) > 1:
        return f"{text} has a leading zero: write {written(name, digits)}"
    if text.isdecimal() and int(text) > most:
        return f"{text} is out of range: {takes}" if name not in BITS else ""
    if re.fullmatch(r"[-+][0-9.]+", text):
        return f"{text} has a sign: {takes}"
    found = re.fullmatch(r"([0-9]+)[(,/](.).*", text)
    if found and int(found[1]) <= 15:
        return f"{text} is two names of a register: write the number alone, {written(name, found[1])}"
    if re.fullmatch(r"[0-9]+\.[0-9]*", text):
        return f"{text} has a point: {takes}"
    parts = re.findall("[0-9]+", text)
    if len(parts) == 1 and int(parts[0]) <= most and not text.startswith(":"):
        return f"found {text}, expected the number alone: write {written(name, parts[0])}"
    return f"found {text}: {takes}" if not text.startswith(":") else ""


def above(text: str) -> str:
    """Returns that a number is too large for a word, and what to write if it is meant in decimal."""
    is_decimal = text.isdecimal() and int(text) <= GREATEST_WORD
    return (f"{text} is above 3FF, the greatest word of ten bits"
            + (f": numbers are hexadecimal: decimal {int(text)} is {int(text):03X}" if is_decimal else ""))


def of_word(name: str, text: str) -> str:
    """Returns what is wrong with a word of three hexadecimal digits."""
    if text.startswith(":"):
        return ""
    digits, signs, is_hexadecimal, _ = marked(text) if not re.fullmatch(r"""(["']).*\1""", text) else ("", "", False, False)
    confused = text.translate(LETTERS)
    if confused != text and re.fullmatch("[0-9A-Fa-f]{1,3}", confused) and int(confused, 16) <= GREATEST_WORD:
        return f"{text} has a letter in place of a digit: write {name} {int(confused, 16):03X}"
    decimal = re.fullmatch("([0-9]{1,4})[dD]", text)
    if decimal and int(decimal[1]) <= GREATEST_WORD:
        return f"{text} is a decimal number: write it in hexadecimal, {name} {int(decimal[1]):03X}"
    is_other_base = re.search("[@%]", signs) or re.match("0[bo]", text)
    if digits and (signs or is_hexadecimal) and int(digits, 16) <= GREATEST_WORD and not is_other_base:
        return f"found {text}, expected three hexadecimal digits alone: write {name} {int(digits, 16):03X}"
    if re.fullmatch("-[0-9A-Fa-f]+", text) and int(text[1:], 16) <= 0x400:
        return f"a word has no sign: {text} is {name} {0x400 - int(text[1:], 16):03X}, if its ten bits are meant"
    if re.fullmatch("[0-9A-Fa-f]{1,2}|0[0-9A-Fa-f]{3,}", text) and int(text, 16) <= GREATEST_WORD:
        return f"{text} has {len(text)} {'digit' if len(text) == 1 else 'digits'}, expected three: write {name} {int(text, 16):03X}"
    if re.fullmatch("[0-9A-Fa-f]+(?:,[0-9A-Fa-f]+)+", text):
        return f"a line has one word: write a line {name} for each of {text.replace(',', ' ')}"
    if re.fullmatch("[0-9A-Fa-f]{3}", text) and int(text, 16) > GREATEST_WORD:
        return above(text)
    return ""


def of_target(name: str, text: str) -> str:
    """Returns what is wrong with a label, an address or a displacement."""
    label = re.fullmatch(r"""[:\["'(<@#&*$]*([A-Za-z]\w{0,11})(?:\(\)|[:\])"'>;,]*)""", text)
    pair = re.fullmatch(r":?([A-Za-z]\w*)\.([A-Za-z]\w*)", text)
    if pair and not text.startswith(":"):
        return f"a reference begins with a colon: write {name} :{text}"
    confused = text.lstrip("#$:").translate(LETTERS)
    if name in LONG and re.fullmatch("[0-9A-Fa-f]{4}", confused) and confused != text and (confused != text.lstrip(":") or text[0] == ":"):
        return (f"{text} has a letter in place of a digit: write {name} {confused.upper()}" if confused != text.lstrip("#$:") else
                f"an address is four hexadecimal digits alone: write {name} {confused.upper()}")
    numbered = re.fullmatch(r"(?:0[xX]|\$|#|&)([0-9A-Fa-f]{1,4})|([0-9A-Fa-f]{1,4})[hH]", text)
    if name in LONG and numbered:
        return f"an address is four hexadecimal digits alone: write {name} {(numbered[1] or numbered[2]).upper():0>4}"
    distance = re.fullmatch(r"[*$.]?([-+]?)(?:0[xX]|\$)?([0-9A-Fa-f]+)[hH]?", text)
    if name in SHORT and distance and len(distance[2]) < 3 and (distance[1] or text.isdecimal()):
        own = f"{distance[1] or '+'}{distance[2].upper():0>2}"
        return f"a displacement has a sign and two hexadecimal digits: write {name} {own}, or a label, {name} :LOOP"
    if name in SHORT and distance and distance[1]:
        return f"{text} is out of reach: a short jump reaches -40 to +3F: write ?{name[1:]} GO and a label"
    if label and f":{label[1]}" != text:
        return f"a reference is a colon and a name: write {name} :{label[1]}"
    if text in (":", "::"):
        return f"the name of the label is missing: write {name} :LOOP"
    if name in OF_LABELS and re.fullmatch("[0-9A-F]{4}", text):
        return f"{name} takes a label, not an address: write a label before the function, and {name} :LABEL"
    return ""
