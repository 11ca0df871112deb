"""Causes of refused commands and lines of blocks in a deck, which the line itself shows: a command in other words, a number in another
form, an operand that is missing. Each cause has the column of the text that is meant. Only refusals need this module."""
from __future__ import annotations

import re
from collections.abc import Iterable, Sequence
from difflib import get_close_matches
from functools import lru_cache

from .decks import OPENERS, is_skipped, words_of
from .documents import codes_of, section_of, tables_of
from .keyboard import KEYS

Cause = tuple[int, str]

COMMENT = re.compile(r";|//|--|/\*|\*|REM\b|#|'")

# Commands and views in other words.
OTHER_COMMANDS = {"print": "show", "display": "show display", "view": "show", "get": "show", "execute": "run", "exec": "run", "go": "run",
                  "continue": "run", "start": "call", "jump": "call", "goto": "call", "xeq": "call", "press": "key", "keys": "key",
                  "type": "key", "enter": "key ENTER", "breakpoint": "break w", "bp": "break w", "delete": "unbreak w",
                  "unset": "unbreak w", "assemble": "asm", "source": "asm", "plug": "image", "rom": "image", "insert": "image",
                  "disassemble": "list", "dis": "list", "dump": "show ram", "regs": "show cpu", "registers": "show cpu", "cpu": "show cpu",
                  "stack": "show stack", "flags": "show flags", "alpha": "show alpha", "clear": "reset", "init": "reset",
                  "restart": "reset", "next": "step", "s": "step", "r": "run", "unload": "unplug", "remove": "unplug", "eject": "unplug",
                  "memory": "size", "mem": "show ram"}
OTHER_VIEWS = {"regs": "cpu", "registers": "cpu", "register": "cpu", "processor": "cpu", "carry": "cpu", "x": "stack", "y": "stack",
               "z": "stack", "t": "stack", "l": "stack", "lastx": "stack", "memory": "ram", "mem": "ram", "flag": "flags",
               "position": "pos", "pc": "pos", "program": "lines", "listing": "lines", "prgm": "lines", "screen": "display",
               "lcd": "display", "rom": "image", "page": "image", "modules": "functions", "catalog": "functions", "xrom": "functions"}
IN_MEMORY = {"T": "000", "Z": "001", "Y": "002", "X": "003", "L": "004", "M": "005", "N": "006", "O": "007", "P": "008", "Q": "009",
             "A": "00A", "B": "00B", "C": "00C", "D": "00D", "E": "00E"}
# The greatest numbers of commands.
MOST = {"step": 9_999_999, "run": 9_999_999, "trace": 9_999_999, "size": 9_999, "break": 9_999, "unbreak": 9_999, "list": 4_096}


@lru_cache(None)
def forms() -> dict[str, list[str]]:
    """Returns the operands of each command, by its name such as `show cpu`."""
    found = {}
    for cell, _ in tables_of(section_of("DECK.md", "Commands"))[0]:
        words = codes_of(cell)[0].split()
        size = 2 if words[0] in ("show", "break", "unbreak") else 1
        found[" ".join(words[:size])] = words[size:]
    return found


def is_no_deck(lines: Sequence[bytes], refusals: Iterable[tuple[int, str]]) -> bool:
    """Returns whether most lines are instructions or program lines, so that the file is no deck. `refusals` has the number of each refused
    line, counted from 0. Words of commands are in lower case, and others are not."""
    words = [words_of(lines[at])[:1] for at, refusal in refusals if refusal.startswith("! 50 BadCommand")]
    firsts = {name.split()[0].encode() for name in forms()}
    strange = sum(not word.islower() and word.lower() not in firsts for some in words for word in some)
    return strange > 2 and 2 * strange > sum(not is_skipped(line) for line in lines)


def cause_of(text: str) -> Cause | None:
    """Returns the column and the cause for a refused command; None if its line does not show one."""
    words = [(found.start() + 1, found[0]) for found in re.finditer(r"[^ \t]+", text)]
    if not words:
        return None
    column, first = words[0]
    if COMMENT.match(first):
        return column, "a comment begins with # as the first character of its line"
    names, firsts = forms(), {name.split()[0] for name in forms()}
    if first not in firsts and first != "end":
        return column, of_name(first, sorted(firsts))
    if first in ("show", "break", "unbreak"):
        found = of_second(words)
        if found:
            return found
    size = 2 if first in ("show", "break", "unbreak") else 1
    name = " ".join(word for _, word in words[:size])
    if first == "key":
        return of_keys(words[1:], column + 3)
    return of_operands(name, words[size:], names.get(name, []), len(text.rstrip()) + 1) if first != "end" else None


def of_name(first: str, names: list[str]) -> str:
    """Returns what an unknown command may be."""
    lower = first.lower().rstrip(":;,")
    if lower in names:
        return f"names of commands are in lower case, without other signs: write {lower}"
    if lower in OTHER_COMMANDS:
        return f"no command is named {first}: write {OTHER_COMMANDS[lower]}"
    if lower in ("quit", "exit", "stop", "bye"):
        return "the end of the file ends a deck: remove this line"
    near = get_close_matches(lower, names, 1, 0.6)
    if near:
        return f"no command is named {first}: the nearest is {near[0]}"
    return f"no command is named {first}: instructions belong into a block asm, and program lines into a block program"


def of_second(words: list[Cause]) -> Cause | None:
    """Finds a wrong second word of show, break and unbreak."""
    first, kinds = words[0][1], [name.split()[1] for name in forms() if name.startswith(f"{words[0][1]} ")]
    after = words[0][0] + len(first)
    if len(words) < 2:
        return after, f"a word is missing after {first}: one of {' '.join(kinds)}"
    column, second = words[1]
    if second in kinds:
        return None
    if first != "show":
        number = second.lstrip(":").upper()
        is_address = re.fullmatch("[0-9A-F]{4}", number)
        if is_address:
            return column, f"the kind is missing: write {first} w {number} for a word, and {first} p {number} for a program line in a page"
        return column, f"the kind of a breakpoint is w, l or p: {first} w and an address for a word"
    near = OTHER_VIEWS.get(second.lower()) or next(iter(get_close_matches(second.lower(), kinds, 1, 0.6)), "")
    return column, f"no view is named {second}{near and f': write show {near}'}; the views are {' '.join(kinds)}"


def of_operands(name: str, words: list[Cause], wanted: list[str], end: int) -> Cause | None:
    """Finds an operand that is missing, one too many, or a number in a wrong form."""
    form = " ".join([name, *wanted])
    for column, word in words[len([one for one in wanted if one != ".."]):]:
        if COMMENT.match(word):
            return column, "a comment has a line of its own, with # as its first character"
    if name.encode() in OPENERS and any(re.search(r"\.\w+\Z", word) for _, word in words):
        column, word = next(one for one in words if re.search(r"\.\w+\Z", one[1]))
        return column, f"a block reads no file: tools/import {word} makes a deck of it"
    needed = [one for one in wanted if one[0] != "["]
    if len(words) < len(needed):
        return end, f"the operand {needed[len(words)]} is missing: {form}, {meaning(needed[len(words)])}"
    if name in ("words", "image", "asm") or name == "show image":
        return of_page(words, form)
    if len(words) > len(wanted):
        column, word = words[len(wanted)]
        return column, f"found {word}, expected nothing after {' '.join([name, *(before for _, before in words[:len(wanted)])])}"
    for (column, word), kind in zip(words, wanted):
        why = of_number(word, kind.strip("[]"), name)
        if why:
            return column, why
    return None


def meaning(kind: str) -> str:
    """Returns what an operand is."""
    return {"hhhh": "an address of four hexadecimal digits", "hhh": "an address of three hexadecimal digits", "n": "a decimal number",
            "P": "a page, 4 to F"}.get(kind, kind)


def of_page(words: list[Cause], form: str) -> Cause | None:
    """Finds a wrong page, bank or `rw`."""
    column, page = words[0]
    why = of_number(page, "P", form)
    if why:
        return column, why
    for at, (column, word) in enumerate(words[1:], 1):
        found = re.fullmatch(r"(?:b|bank)?=?([0-9])", word, re.I)
        after = words[at + 1][1] if len(words) > at + 1 else ""
        if word.lower() == "bank" and after.isdecimal():
            return column, f"a bank is written b{after}, in one word"
        if found and not 1 <= int(found[1]) <= 4:
            return column, f"found the bank {found[1]}, expected b1 to b4"
        if found and word != f"b{found[1]}":
            return column, f"a bank is written b{found[1]}"
        if not found and word != "rw":
            near = "rw" if word.lower() in ("rw", "wr", "ram", "writable", "write") else ""
            return column, f"found {word}, expected only a bank such as b2, and rw{f': write {near}' if near else ''}: {form}"
    return None


def of_number(word: str, kind: str, name: str) -> str:
    """Returns what is wrong with a number; an empty text if its form is right."""
    bare = re.sub(r"^(?:0[xX]|\$|#|:)|[hH]$|[,;]$", "", word)
    if kind == "P":
        found = re.fullmatch("(?:[pP])?([0-9A-Fa-f])(?:000)?", bare)
        if found and found[1] in "0123":
            return f"found the page {found[1]}, expected 4 to F"
        return "" if re.fullmatch("[0-9A-Fa-f]", word) else f"a page is one digit, 4 to F{found and f': write {found[1].upper()}' or ''}"
    if kind in ("hhhh", "hhh"):
        size = len(kind)
        if re.fullmatch(f"[0-9A-Fa-f]{{{size}}}", word):
            return ""
        if kind == "hhh" and word.upper() in IN_MEMORY and not word.isdecimal():
            return f"an address has three hexadecimal digits: {word} is at {IN_MEMORY[word.upper()]}"
        if re.fullmatch(f"[0-9A-Fa-f]{{1,{size}}}", bare):
            return f"an address has {'four' if size == 4 else 'three'} hexadecimal digits alone: write {bare.upper():0>{size}}"
        if re.fullmatch(r":?[A-Za-z]\w*(?:\+\w*)?", word):
            return "a deck has no labels: write them in a file of commands, NAME.calls, of which tools/import makes a deck"
        return f"found {word}, expected an address of {'four' if size == 4 else 'three'} hexadecimal digits"
    if kind != "n" or word.isdecimal() and int(word) <= MOST.get(name.split()[0], 9_999_999):
        return ""
    if word.isdecimal():
        return f"{word} is above {MOST.get(name.split()[0], 9_999_999):,}, the greatest number here"
    digits = re.sub("[,_'.]", "", word)
    if digits.isdecimal() and not re.fullmatch(r"\d+\.\d{1,2}", word):
        return f"a number has decimal digits alone: write {digits}"
    found = re.fullmatch(r"(?:0[xX]|\$)([0-9A-Fa-f]+)|([0-9A-Fa-f]*[A-Fa-f][0-9A-Fa-f]*)[hH]?", word)
    if found and re.search(r"\d", word):
        return f"this number is decimal: write {int(found[1] or found[2], 16)}"
    return f"found {word}, expected a decimal number without sign, point and letters"


def of_keys(words: list[Cause], end: int) -> Cause | None:
    """Finds a word that is not the name of a key."""
    if not words:
        return end, "the names of keys are missing: for example key 1 ENTER"
    for column, word in words:
        if word in KEYS or word.startswith('"') or re.fullmatch(r"-?[0-9]*\.?[0-9]+(?:E-?[0-9]{1,2})?", word):
            continue
        parts = re.fullmatch(r"([0-9.]+)([-+*/])([0-9.]+)", word)
        if parts:
            return column, f"keys are pressed one after the other: write {parts[1]} ENTER {parts[3]} {parts[2]}"
        other = {"ENTER^": "ENTER", "RETURN": "ENTER", "XEQ^": "XEQ", "DEL": "BACK", "CLEAR": "BACK", "<-": "BACK", "RUN": "R/S",
                 "RS": "R/S", "SHFT": "SHIFT", "EXP": "EEX", "EE": "EEX", "NEG": "CHS", "+/-": "CHS", "Σ+": "SIGMA+",
                 "X<>Y": "X<>Y"}.get(word.upper())
        near = (next((name for name in KEYS if name.lower() == word.lower()), "") or other
                or next(iter(get_close_matches(word.upper(), KEYS, 1, 0.7)), ""))
        text = f'; letters are typed by a text in quotes, "{word.upper()}"' if word.isalpha() else ""
        return column, f"no key is named {word}{near and near != word and f': the nearest is {near}' or ''}{text}"
    return None


def of_open_block(opener: str, lines: Sequence[str]) -> tuple[int, int, str] | None:
    """Returns the line that shows why a block has no end, counted from 1 in the block, with its column and the cause: an `end` in another
    form, or else the first command. `lines` are those after the opener."""
    own = {name.split()[0] for name in forms()}
    for number, line in enumerate(lines, 1):
        found = re.fullmatch(r"(\s*)(\.?end\.?)(\s*[;#/(,.].*|\s+\w+)?\s*", line, re.I)
        if found and not (opener == "program" and found[2].upper() in ("END", ".END.") and found[2] != "end"):
            how = "in lower case" if found[2].strip(".") != "end" else "alone in its line"
            return number, len(found[1]) + 1, f"a block is closed by the word end {how}: write end"
        first = re.match(r"(\s*)([a-z]+)(?=\s|\Z)", line)
        if first and first[2] in own:
            after = number > 1 and lines[number - 2].strip() == "END" and opener == "program"
            more = ", because END is a line of the program" if after else ""
            return number, len(first[1]) + 1, f"{first[2]} is a command: the line `end` of the block is missing before it{more}"
    return None


def of_inner(opener: str, text: str) -> Cause | None:
    """Returns the column and the cause for a refused line of a block of words, bytes or program lines."""
    column, word = next(((found.start() + 1, found[0]) for found in re.finditer(r"[^ \t]+", text)
                         if opener != "words" or not re.fullmatch("[0-9A-Fa-f]{1,3}", found[0]) or int(found[0], 16) > 0x3FF), (1, ""))
    if opener == "words":
        parts = re.sub(r"0[xX]|[$,;]", " ", word).split()
        if re.fullmatch("[0-9A-Fa-f]+", word):
            return column, f"{word} is not a word: it has one to three digits, and is at most 3FF"
        if COMMENT.match(word):
            return column, "a comment has a line of its own, with # as its first character"
        if parts and all(re.fullmatch("[0-9A-Fa-f]{1,3}", part) for part in parts):
            return column, f"words are hexadecimal digits with spaces between them: write {' '.join(parts)}"
        return column, f"{word} is not a word of one to three hexadecimal digits: an instruction belongs into a block asm"
    if opener == "program":
        numbered = re.match(r"\s*([0-9]{1,4})\s+([A-Z\"].*)", text)
        if numbered:
            return column, f"a program line has no number before it: write {numbered[2]}"
        if text.strip() and text != text.upper() and '"' not in text:
            return column, f"names of functions are in upper case: write {text.strip().upper()}"
        if text != text.strip():
            return column, "a program line must have no spaces before or after it: remove them"
        named = re.fullmatch(r"(LBL|GTO|XEQ) ([A-Z][A-Z0-9]+)", text)
        return (column, f"a name is in quotes: write {named[1]} \"{named[2]}\"") if named else None
    return None
