"""Causes of mistakes in rows of cases: signs in place of `->` and `=`, names and values in the form of other programs. Each cause says
what to write. Only errors need this module."""
from __future__ import annotations

import re
from collections.abc import Callable, Iterable
from decimal import Decimal
from difflib import get_close_matches

# Signs that are written in place of ->.
ARROWS = re.compile(r"=>|→|- +>|--+>|~>|==+>?|\|-?>?|(?<=\s);(?=\s)|(?<=\s)(?:expect|gives|then|is)(?=\s)|\.\.+|>>")
TOUCHING = re.compile(r"(?<=\S)->|->(?=\S)")
COMMENT = re.compile(r"\s*(;|//|--(?!>)|/\*|\*|REM\b)")
QUOTED = re.compile(r"\"[^\"]*\"|'[^']*'")

# Names of settings in the words of other programs.
OTHER_NAMES = {"LASTX": "L", "LSTX": "L", "LAST": "L", "CARRY": "CY", "C_FLAG": "CY", "ERROR": "refusal", "ERR": "refusal",
               "FAIL": "refusal", "DISP": "display", "DSP": "display", "SCREEN": "display", "KEY": "keys", "PRESS": "keys", "STEP": "steps",
               "CYCLES": "steps", "COUNT": "steps", "STATUS": "ST", "SB": "ST", "BASE": "MODE", "POINTER": "PT", "DADD": "RAM",
               "TEXT": "ALPHA", "STRING": "ALPHA", "AREG": "A", "BREG": "B", "CREG": "C", "REGX": "X", "REGY": "Y", "XREG": "X",
               "YREG": "Y", "STX": "X", "STY": "Y", "STZ": "Z", "STL": "L"}
CONSTANTS = {"PI": "3.141592654", "TRUE": "1", "FALSE": "0", "ZERO": "0"}
CURLY = re.compile("[“”„‘’«»]")


def of_arrow(row: str) -> str:
    """Returns why a row has no `->`, with the column if a sign is in its place; an empty text if the row shows nothing."""
    comment, plain = COMMENT.match(row), QUOTED.sub(lambda one: " " * len(one[0]), row.partition("#")[0])
    if comment:
        return f"column {comment.start(1) + 1}: a comment begins with #, not with {comment[1]}; "
    if plain.strip().startswith("->"):
        return f"column {plain.index('->') + 1}: nothing is called: a label is missing before ->; "
    found, touching = ARROWS.search(plain), TOUCHING.search(plain)
    if touching and not (found and found.start() <= touching.start() < found.end()):
        return f"column {touching.start() + 1}: a space is missing beside ->; "
    if found:
        return f"column {found.start() + 1}: found {found[0]}, expected ->; "
    return "no -> is between what is set before the call and what is expected after it; "


def of_target(text: str) -> str:
    """Returns a hint on what a row calls; an empty text if there is none."""
    bare = text.strip(":'“”‘’;,()[]")
    if re.fullmatch(r"[A-Za-z]\w{0,11}[:/!][A-Za-z]\w{0,11}", text):
        return f"; the page and the label have a point between them: write {re.sub('[:/!]', '.', text)}"
    if "=" in text and "(" not in text:
        return "; a row begins with what is called, for example X10 X=5 -> X=50"
    if "(" in text:
        return f"; there are no brackets: write {text.partition('(')[0]} and the settings after a space"
    if re.search("['“”‘’]", text):
        return f'; the quotes of a function are straight and double: write "{bare}"'
    if re.fullmatch("(?:0x)?[0-9A-Fa-f]{4}", text):
        return "; an address is not called: write a label before the instruction, and call it"
    if re.fullmatch(r"[A-Za-z]\w{0,11}[+-]\w+", text):
        return "; there are no offsets: write a label before the instruction, and call it"
    return f"; a label has no other signs here: write {bare}" if re.fullmatch(r"[A-Za-z]\w{0,11}", bare) and bare != text else ""


def of_order(words: list[str], is_target: Callable[[str], bool]) -> str:
    """Returns a hint on the words of a command line that begin with a setting: the call is before it."""
    called = next((word for word in words if is_target(word)), "X10")
    line = " ".join([called, *(word for word in words if word != called)])
    return f"; what is called comes before the settings: {'write' if called in words else 'for example'} {line}"


def is_register(name: str) -> bool:
    """Returns whether a setting has this name."""
    from .settings import DATA_NAME, FLAG_NAME, READERS
    return name in READERS or any(form.fullmatch(name) for form in (DATA_NAME, FLAG_NAME))


def of_setting(words: list[str], at: int, is_first: bool) -> str:
    """Returns a hint on a word that is no setting, which is word number `at`; an empty text if there is none."""
    word, after = words[at], [*words[at + 1:], "", ""]
    named = re.match(r"([A-Za-z][\w.]*|[0-3][0-9A-F]{2}(?=\W))", word)
    if at and re.match("(?:ALPHA|keys|display)=", words[at - 1]):
        return "; write a text with spaces in quotes"
    if word.startswith("steps"):
        return "; a limit is written steps<=20"
    if COMMENT.match(word):
        return "; a comment begins with #"
    if word == "->":
        return "; a row has one ->"
    if CURLY.search(word):
        return "; quotes are straight, \" or '"
    if re.fullmatch(r"[A-Za-z]\w*:=?\S*", word):
        return f"; write = between a name and its value, not a colon: {re.sub(':=?', '=', word, count=1)}"
    if named and re.fullmatch(r"(?:>=|<=|!=|<>|#|<|>|≠|~=).*", word[named.end():]):
        return f"; only = compares a value: {named[0]}=5"
    if re.fullmatch(r"[\w.]+=", word) or word == "=" and not after[0]:
        return "; the value is missing, or a space is before it"
    if named and named[0] == word and (after[0][:1] == "=" or re.match(r"[-+.\d\"]", after[0])):
        value = (after[0] + (after[1] if after[0] == "=" else "")).lstrip("=")
        return f"; a setting has no spaces: write {word}={value}"
    part = re.fullmatch(r"([A-Za-z0-9]+)\w*[\[(]\w+[\])]=?.*", word)
    if part:
        return f"; a setting is a whole register: write {part[1]}= and all its digits"
    if re.fullmatch(r"[-+]?[\d.]+(?:E-?\d+)?,?", word):
        return f"; the name of the register is missing: write for example X={word.rstrip(',')}"
    if is_register(word):
        return f"; the value is missing: write for example {word}=5"
    if is_first and re.fullmatch(r"[A-Za-z]\w{0,11}|\"[^\"]*\"", word):
        return "; a row begins with the label that it calls, without a word before it"
    return ""


def of_register(text: str) -> str:
    """Returns a hint on the value of a register of memory; an empty text if there is none."""
    digits = re.sub(r"E.*|[^0-9]", "", text.upper()).strip("0")
    if text.endswith(","):
        return f"; settings have no comma between them: write {text.rstrip(',')}"
    if text.startswith("="):
        return f"; one = is enough: write {text.lstrip('=')}"
    if CURLY.search(text):
        return f"; quotes are straight: write {CURLY.sub(chr(34), text)}"
    if re.fullmatch(r"[-+]?\d{1,3}(,\d{3})+(\.\d*)?", text):
        point = f", or {text.replace(',', '.').lstrip('+')} if the comma is the decimal sign" if re.fullmatch(r"[-+]?\d+,\d+", text) else ""
        return f"; digits have no comma between them: write {text.replace(',', '').lstrip('+')}{point}"
    if re.fullmatch(r"[-+]?\d*,\d+(?:[Ee]-?\d+)?", text):
        return f"; the decimal sign is a point: write {text.replace(',', '.').lstrip('+')}"
    if re.fullmatch(r"[-+]?(?:\d+\.?\d*|\.\d+)(?:e[-+]?\d+)?", text) and ("e" in text or text[0] == "+"):
        return f"; write {text.upper().lstrip('+')}"
    if text.upper() in CONSTANTS:
        return f"; {text} is no number: write {CONSTANTS[text.upper()]}"
    found = re.fullmatch(r"(?:0x|\$)([0-9A-Fa-f]+)|([0-9A-Fa-f]+)[Hh]", text)
    if found:
        bare = found[1] or found[2]
        own = f": write {bare.upper()}" if len(bare) == 14 else ", and are 14 of them"
        return f"; hexadecimal digits have no sign before or after them{own}"
    if re.fullmatch("[0-9A-Fa-f]{11,}", text) and (len(text) != 14):
        return f"; found {len(text)} digits" + ("" if text.isdecimal() and len(text) < 14 else ": a register has 14")
    if re.fullmatch(r"[-+]?[\d.]+/[\d.]+", text):
        return "; a fraction is no number: write its decimal digits"
    if re.fullmatch(r"[-+]?[\d.]+E[-+]?\d{3,}", text):
        return "; the exponent has more than two digits"
    if re.fullmatch(r"-?(?:\d+\.?\d*|\.\d+)(?:E-?\d\d?)?", text) and abs(Decimal(text).adjusted()) > 99:
        number = Decimal(text)
        bound = "greatest exponent is 99" if number.adjusted() > 0 else "smallest exponent is -99"
        return f"; {text} is {number.scaleb(-number.adjusted()).normalize()}E{number.adjusted()}, and the {bound}"
    if re.fullmatch("[A-Za-z ]{1,6}", text):
        return f'; a text is in quotes: write "{text}"'
    return f"; found {len(digits)} digits" if len(digits) > 10 and re.fullmatch(r"-?[\d.]+(?:E-?\d+)?", text) else ""


def of_hexadecimal(text: str, width: int) -> str:
    """Returns a hint on a hexadecimal number of so many digits; an empty text if there is none."""
    found = re.fullmatch(r"(?:0x|\$|#)([0-9A-Fa-f]+)|([0-9A-Fa-f]+)[Hh]", text)
    if found and len(found[1] or found[2]) <= width:
        return f"; the digits have no sign before or after them: write {(found[1] or found[2]).upper()}"
    if text.endswith(",") or text.startswith("="):
        return f"; write {text.strip(',=')}"
    if re.fullmatch("[0-9A-Fa-f]+", text) and len(text) > width:
        return f"; found {len(text)} digits"
    if re.fullmatch(r"-?[\d.]+(?:E-?\d+)?", text):
        return "; a register of the processor is set by its digits, not by a number"
    return ""


def of_word(text: str, values: Iterable[str]) -> str:
    """Returns a hint on a value that is one of a few words; an empty text if there is none."""
    meant = {"TRUE": "1", "YES": "1", "ON": "1", "SET": "1", "FALSE": "0", "NO": "0", "OFF": "0", "CLEAR": "0", "16": "HEX", "10": "DEC",
             "HEXADECIMAL": "HEX", "DECIMAL": "DEC"}
    plain = text.strip("\"',=").upper()
    own = plain if plain in values else meant.get(plain, "")
    return f"; write {own}" if own in values and own != text else ""


def of_name(name: str, names: Iterable[str]) -> str:
    """Returns what may be meant by the name of a setting; an empty text if nothing is likely."""
    plain = name.upper().replace("_", "").replace("-", "")
    data, flag, bit = (re.fullmatch(form, plain) for form in (r"(?:REG?|MEM|R)(\d{1,3})", r"(?:FLAG|FLG|FS|F)(\d{1,2})", r"S(\d{1,2})"))
    if re.search("->.", name):
        return f": a comma is missing before ->: write {name.replace('->', ',->')}"
    if name.startswith("=") or plain.startswith("EXPECT") or plain in ("WANTED", "RESULT", "OUTPUT", "OUT"):
        return ": the name of an expected value is -> and a register, for example ->X"
    if data:
        return f": write R{int(data[1]):02}"
    if flag and int(flag[1]) <= 55:
        return f": write F{int(flag[1]):02}"
    if bit and int(bit[1]) <= 13:
        return f": a status bit is part of ST: S{int(bit[1])} alone is ST={1 << int(bit[1]):04X}"
    if re.fullmatch("[0-9A-F]{3,4}", name):
        return ": addresses of memory are 000 to 3FF"
    if re.fullmatch(r"-?[\d.]+", name):
        return ": the first row has names, for example X,->X"
    near = OTHER_NAMES.get(plain) or next(iter(get_close_matches(plain, [one.upper() for one in names], 1, 0.7)), "")
    return f": the nearest is {next((one for one in names if one.upper() == near), near)}" if near else ""
