"""Spellings of program lines in listings, and the texts that the bench may read for them.

Signs and names are in the tables of docs/PROGRAMS.md. This module has the forms of lines: numbers, texts, labels, and functions with an
operand. A line has several possible texts, the likeliest first; the bench decides which of them it can read."""
from __future__ import annotations

import re
from dataclasses import dataclass, field
from typing import Iterable, Optional

from .documents import codes_of, section_of, tables_of
from .doubts import COMMA, doubtful
from .functions import Functions

DOCUMENT = "PROGRAMS.md"

# Signs before a LBL in printed listings.
LABEL_MARKS = "*♦◆▸▶►•●>"

# The append sign before a text, and as the first character inside its quotes.
APPENDED = re.compile(r"""(?:(?:[├⊢]|\|-|-[├⊢]|>(?=\s*["'])|APPEND(?=[\s"']))\s*)(?:"(.*)"|'(.*)'|(.+))""", re.I)
APPENDED_WITHIN = re.compile(r'"(?:[├⊢]|-[├⊢]|\\7F)(.*)"')
TEXT = re.compile(r'"(.*)"|\'(.*)\'|ᵀ(.+)')

LABELLED = re.compile(r"""(LBL|GTO|XEQ|W)(?:\s*"(.*)"|\s*'(.*)'|\s*ᵀ(.*)|\^T\s*([^\s"']+)|\s+([^\s"']+))""", re.I)
NAME = re.compile(r"(?!IND\Z|\.).*[^\W\d_].*", re.I)
ONE_LETTER = re.compile(r"(?:LBL|GTO|XEQ) ([A-Za-z])")

OPERATED = re.compile(r"(.+?)(?:\s+|(?<=[-+*/×÷])(?=IND))(?:(IND)\s*)?(?:ST\s+)?"
                      r"([0-9]{1,3}|[A-Za-z]|[\[\\\]↑^_]|[├⊢]|\|-|APPEND)", re.I)

# X<>Y with spaces. `X<> Y` does not belong to these: it is the line of two bytes.
EXCHANGE = re.compile(r"X\s*[↔⇄]\s*Y|X\s+<>\s*Y", re.I)

# How the calculator shows the registers M to Q.
SHOWN_REGISTERS = {"[": "M", "\\": "N", "]": "O", "↑": "P", "^": "P", "_": "Q"}

MODULE = re.compile(r"XROM\s*([0-9]{1,2})\s*[,/:.]\s*([0-9]{1,2})", re.I)
LAST = re.compile(r"\.END\.\s+REG\s+[0-9]+", re.I)
END = re.compile(r"END\.", re.I)
TEST = re.compile(r"X[^?]+", re.I)
HEAD = re.compile(r"\{.*\}")

NUMBER = re.compile(r"([+-]?)([0-9.,]*)(?:\s*[Eeᴇ]\s*([+-]?)\s*([0-9]*))?")
GROUPS = re.compile(r"[1-9][0-9]{0,2}(?:,[0-9]{3})+(?:\.[0-9]*)?")
GROUPS_OF_POINTS = re.compile(r"[1-9][0-9]{0,2}(?:\.[0-9]{3})+,[0-9]*")
DECIMAL_COMMA = re.compile(r"[0-9]*,[0-9]*")


@dataclass
class Tables:
    """The tables of the document."""

    everywhere: dict[str, str] = field(default_factory=dict)
    in_names: dict[str, str] = field(default_factory=dict)
    in_texts: dict[str, str] = field(default_factory=dict)
    names: dict[str, str] = field(default_factory=dict)
    printed: dict[str, str] = field(default_factory=dict)

    def key(self, name: str) -> str:
        """Returns the key of a name in the tables: in capitals, with its signs replaced, without spaces."""
        name = re.sub(r"[a-z]", lambda letter: letter[0].upper(), re.sub(r"\s", "", name))
        return replaced(name, self.in_names)

    def name(self, name: str) -> str:
        """Returns the name that the bench has for a function. A name that is not in the table is not changed."""
        key = self.key(name)
        return self.names.get(key, key)


def replaced(text: str, signs: dict[str, str]) -> str:
    """Returns a text with its signs replaced."""
    for sign, other in signs.items():
        text = text.replace(sign, other)
    return text


def read_tables() -> Tables:
    """Returns the tables of signs and names."""
    tables = Tables()
    for signs, other in tables_of(section_of(DOCUMENT, "Signs everywhere"))[0]:
        tables.everywhere.update(dict.fromkeys(map(sign_of, codes_of(signs)), sign_of(codes_of(other)[0])))
    for signs, name, text in tables_of(section_of(DOCUMENT, "Signs in names and texts"))[0]:
        for cell, into in ((name, tables.in_names), (text, tables.in_texts)):
            if codes_of(cell):
                into.update(dict.fromkeys(codes_of(signs), codes_of(cell)[0]))
    for name, printed, others in tables_of(section_of(DOCUMENT, "Names of functions"))[0]:
        name = codes_of(name)[0]
        if codes_of(printed):
            tables.printed[name] = codes_of(printed)[0]
        tables.names.update(dict.fromkeys(map(tables.key, codes_of(printed) + codes_of(others)), name))
    return tables


def sign_of(code: str) -> str:
    """Returns a sign of the first table, which may be written as U+ and its number."""
    return chr(int(code[2:], 16)) if re.fullmatch(r"U\+[0-9A-F]{4}", code) else code


def outside_quotes(text: str, sign: str) -> int:
    """Returns where a sign first occurs outside quotes; -1 if it does not."""
    quoted = False
    for at, letter in enumerate(text):
        quoted ^= letter == '"'
        if letter == sign and not quoted:
            return at
    return -1


# Possible texts of a line, each with a remark.
Readings = list[tuple[str, str]]


class Speller:
    """Translates the lines of a listing. All numbers of the listing decide what a comma means. `functions` are the known functions of
    modules."""

    def __init__(self, tables: Tables, lines: Iterable[str], functions: Optional[Functions] = None) -> None:
        """Finds out from the lines of the listing whether a comma is the decimal point."""
        self.tables, self.functions = tables, functions
        numbers = [found[2] for found in map(NUMBER.fullmatch, map(self.plain, lines)) if found]
        certain = [number for number in numbers if "," in number and not self.is_ambiguous(number)]
        self.comma_is_point = bool(certain) and not any(map(GROUPS.fullmatch, certain))

    @staticmethod
    def is_ambiguous(number: str) -> bool:
        """Returns whether a comma may separate thousands or be the decimal point."""
        return number.count(",") == 1 and "." not in number and GROUPS.fullmatch(number) is not None

    def plain(self, line: str) -> str:
        """Returns a line in ASCII signs, without its comment and without a sign before its LBL."""
        line = replaced(line, self.tables.everywhere)
        at = outside_quotes(line, ";")
        line = (line if at < 0 else line[:at]).strip()
        return re.sub(rf"\A[{re.escape(LABEL_MARKS)}]\s*(?=LBL\b)", "", line, flags=re.I)

    def spellings(self, line: str) -> Optional[Readings]:
        """Returns the possible texts of a line, the likeliest first, each with a remark. None if nothing is left of the line, for example
        of a comment."""
        line = self.plain(line)
        if line == "" or HEAD.fullmatch(line):
            return None
        found = [(line, "")]
        for form in (self.number, self.text, self.module, self.function, self.label, self.whole, self.named):
            found += form(line)
        return found

    def number(self, line: str) -> Readings:
        """Reads a number: spaces and plus signs are removed, and commas are interpreted."""
        found = NUMBER.fullmatch(line)
        if not found or found[4] is None and not re.search(r"[0-9]", found[2]):
            return []
        sign, mantissa, exponent_sign, exponent = found.groups()
        read, remark = self.commas(mantissa)
        if read is None:
            return []
        end = "" if exponent is None else f"E{exponent_sign.replace('+', '')}{exponent}"
        return [(f"{sign.replace('+', '')}{read}{end}", remark)]

    def commas(self, mantissa: str) -> tuple[Optional[str], str]:
        """Returns a mantissa without commas, and a remark on how they were read."""
        if "," not in mantissa:
            return mantissa, ""
        thousands, point = mantissa.replace(",", ""), mantissa.replace(",", ".")
        if self.is_ambiguous(mantissa):
            if self.comma_is_point:
                return point, doubtful(COMMA, "the comma is read as the decimal point, as in other numbers of this listing")
            return thousands, doubtful(COMMA, f"the comma is read as separating thousands; if it is the decimal point, write {point}")
        if GROUPS.fullmatch(mantissa):
            return thousands, "the commas separate thousands"
        if GROUPS_OF_POINTS.fullmatch(mantissa):
            return mantissa.replace(".", "").replace(",", "."), "the points separate thousands"
        if DECIMAL_COMMA.fullmatch(mantissa):
            return point, "the comma is read as the decimal point"
        return None, ""

    def characters(self, text: str) -> str:
        """Returns the characters of a text or a name in quotes."""
        return replaced(text, self.tables.in_texts)

    def text(self, line: str) -> Readings:
        """Reads a text for ALPHA."""
        for form, front in ((APPENDED_WITHIN, ">"), (APPENDED, ">"), (TEXT, "")):
            found = form.fullmatch(line)
            if found:
                content = next(part for part in found.groups() if part is not None)
                return [(f'{front}"{self.characters(content)}"', "")]
        return []

    @staticmethod
    def module(line: str) -> Readings:
        """Reads a function of a module by its numbers."""
        found = MODULE.fullmatch(line)
        return [(f"XROM {int(found[1]):02},{int(found[2]):02}", "")] if found else []

    def named(self, line: str) -> Readings:
        """Reads a function of a module by its name."""
        return self.functions.spellings(self.tables.key(line)) if self.functions else []

    def function(self, line: str) -> Readings:
        """Reads a function with an operand."""
        found = OPERATED.fullmatch(line)
        if not found or EXCHANGE.fullmatch(line):
            return []
        name, indirect, operand = found.groups()
        return [(f"{self.tables.name(name)} {'IND ' if indirect else ''}{self.operand(operand)}", "")]

    @staticmethod
    def operand(text: str) -> str:
        """Returns an operand: two digits, a letter, or the append register."""
        if text.isdecimal():
            return f"{int(text):02}"
        if text in SHOWN_REGISTERS:
            return SHOWN_REGISTERS[text]
        if len(text) == 1 and text.isascii():
            return text if text in "abcde" else text.upper()
        return "append"

    def label(self, line: str) -> Readings:
        """Reads a label with a name, in quotes or without."""
        found = LABELLED.fullmatch(line)
        if not found:
            return []
        name = next(part for part in found.groups()[1:] if part is not None)
        if (found[5] or found[6]) and not NAME.fullmatch(name):
            return []
        return [(f'{found[1].upper()} "{self.characters(name)}"', "")]

    def function_called(self, text: str) -> Optional[str]:
        """Returns the line that would be the function of the called name; None if the line does not call a name."""
        found = re.fullmatch(r'XEQ "([^"]+)"', text)
        return self.tables.name(found[1]) if found else None

    def whole(self, line: str) -> Readings:
        """Reads a function without an operand."""
        if LAST.fullmatch(line):
            return [(".END.", "")]
        if END.fullmatch(line):
            return [("END", "")]
        has_letter = not line.isascii() or re.search(r"[A-Za-z]", line)
        if '"' in line or not has_letter and self.tables.key(line) not in self.tables.names:
            return []
        found = [(self.tables.name(line), "")]
        return found + [(self.tables.name(f"{line}?"), "a test without its question mark")] if TEST.fullmatch(line) else found

    @staticmethod
    def remark_on(line: str) -> str:
        """Returns a remark if a line that the bench reads may be meant differently; otherwise an empty text."""
        found = ONE_LETTER.fullmatch(line)
        if found:
            return f'the local label {found[1]}; for a label with this name, write it in quotes: {found[0].split()[0]} "{found[1]}"'
        return ""


def printed(tables: Tables, line: str, names: dict[str, str]) -> str:
    """Returns a line as archives print it, which is read as the same line again. Functions of modules are printed by name."""
    if line in names:
        return names[line]
    found = re.fullmatch(r'(>?|[A-Z]+ )(".*")', line)
    if found:
        signs: dict[str, str] = {}
        for sign, other in tables.in_texts.items():
            signs.setdefault(other, sign)
        return found[1].replace(">", "├") + replaced(found[2], signs)
    name, blank, operand = line.partition(" ")
    return tables.printed.get(name, name) + blank + operand.replace("append", "├")
