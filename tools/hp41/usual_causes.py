"""Usual causes of errors in sources: of the rows of docs/ASSEMBLER.md, the cause of the most similar line.

Only errors need this module, which takes time to load."""
from __future__ import annotations

import re
from difflib import SequenceMatcher
from typing import Optional, Union

from .decks import block, refused, words_of
from .dialects import as_own
from .documents import codes_of, pairs_of, plain, section_of, tables_of
from .operand_causes import example, kind_of
from .source_causes import Mistake, operations
from .sources import NAME, OF_THE_LINE, Fault, Line

# Operands that are tried. The set of those that an instruction takes is its class.
OPERANDS = (b"", b"ALL", b"8010", b":A", b"+00", b"8", b"15", b"000", b'"A"')

DIRECTIVES_OF_OTHERS = re.compile(rb"\.?(?:ORG|END|EQU|SET|FILLTO|BSS|DEFR4K|DEFR8K|TITLE|INCLUDE)\Z", re.I)


# The class of each instruction, and the kind of a line: the class of its instruction, or a name.
Classes = dict[bytes, frozenset[bytes]]
Kind = Union[frozenset[bytes], str, None]

# The column and the cause of an error that a line shows.
Cause = Optional[tuple[int, str]]


def classes_of(instructions: set[bytes]) -> Classes:
    """Returns the class of each instruction: the operands that the bench accepts for it. The class of something else is empty."""
    asked = [(one, operand) for one in sorted(instructions) for operand in OPERANDS]
    _, found = refused(b"".join(block(b"asm 3", [b"A: " + one + b" " + operand]) for one, operand in asked))
    taken: dict[bytes, set[bytes]] = {one: set() for one in instructions}
    for first, _, refusal in found:
        one, operand = asked[first // 3]
        if refusal == "! 01 NoSuchPage":
            taken[one].add(operand)
    return {one: frozenset(operands) for one, operands in taken.items()}


def instructions_of(code: bytes) -> list[bytes]:
    """Returns what may be the instruction of a line: its first word, or its first two words."""
    words = [word for word in words_of(code) if re.fullmatch(rb"[!-~]+", word) and b";" not in word and b'"' not in word]
    return [words[0], b" ".join(words[:2])] if words[1:] else words


class Asked:
    """A line with an error whose usual cause is wanted, or a line of the document that has the cause."""

    def __init__(self, text: bytes, refusal: str) -> None:
        """Takes a line with its refusal."""
        self.line, self.refusal = Line(text), refusal
        self.first = (words_of(self.line.code) or [b""])[0]
        self.behind = self.line.code[len(self.first):]
        self.shape = re.sub("[a-z]", "a", re.sub("[A-Z]", "A", re.sub("[0-9]", "0", self.line.code.decode(errors="replace"))))

    def names(self) -> list[str]:
        """Returns the possible instructions of the line as texts."""
        return [name.decode() for name in instructions_of(self.line.code)]

    def instructions(self) -> list[bytes]:
        """Returns everything that may be an instruction in the line."""
        names = instructions_of(self.line.code)
        if self.refusal == "! 30 BadLine":
            names = [*(name.upper() for name in names), *instructions_of(self.behind)]
        return names

    def kind(self, classes: Classes, others: dict[bytes, str]) -> Kind:
        """Returns the kind of the line. If the error is in the operand, this is the class of the instruction."""
        if self.refusal != "! 30 BadLine":
            return next((classes[name] for name in instructions_of(self.line.code) if classes[name]), None)
        if self.first in others:
            return "another dialect"
        if any(classes[name.upper()] for name in instructions_of(self.line.code)):
            return "lower case"
        if re.match(NAME + rb":.", self.first):
            return "a label that touches"
        if self.first.endswith(b":"):
            return "a label with other signs"
        if DIRECTIVES_OF_OTHERS.match(self.first):
            return "a directive of others"
        if any(classes[name] for name in instructions_of(self.behind)):
            return "a label without its colon"
        return "a comment" if re.match(rb"[*/#!]", self.first) else None

    def may_be_as(self, row: Asked, kind: Kind) -> bool:
        """Returns whether the cause in a row of the same kind can apply to this line. For a decimal operand, the row must have a number
        too, and zero only if this line has zero."""
        if not isinstance(kind, frozenset) or b"8" not in kind:
            return True
        mine, its = (words_of(one.line.code)[1:] for one in (self, row))
        is_zero = its == [b"0"]
        return [word.isdigit() for word in mine] == [word.isdigit() for word in its] and (not is_zero or mine == its)


def other_names() -> dict[bytes, str]:
    """Returns the names of other dialects in docs/ASSEMBLER.md, each with its replacement."""
    return {other.encode(): name for other, name in pairs_of(tables_of(section_of("ASSEMBLER.md", "Other dialects"))[0])}


def operands() -> dict[str, str]:
    """Returns the operands of instructions from docs/ASSEMBLER.md."""
    return {name: plain(behind) for instructions, behind in tables_of(section_of("ASSEMBLER.md", "Instructions"))[0]
            for name in codes_of(instructions)}


def may_be_of_others(kind: Kind) -> bool:
    """Returns whether a line of this kind may be one of another dialect even if a cause is known: a directive, or an instruction with a
    field or without an operand."""
    return kind == "a directive of others" or isinstance(kind, frozenset) and not kind.isdisjoint((b"", b"ALL"))


def of_another_dialect(own: str) -> str:
    """Returns the remark about a line of another dialect, from its translation."""
    return "a line of another dialect, which tools/import " + ("removes" if own.startswith(";") else f"reads as `{own}`")


# Causes that are certain: characters that look like others, a colon that is missing, and a zero too many.
CERTAIN = ("U+", "begins with a colon", "has a leading zero", "in upper case", "alone: write", "space is missing", "in place of a digit",
           "a comment begins with ;", "the colon of ", "decimal number: write it", "no space is", "no spaces inside", "expected three:",
           "colon and a name:", "two hexadecimal digits: write", "has no operand: it", "is not in memory:", "JC or JNC after it",
           "the word for 0 is", "takes a decimal number, ")


def shown_causes(asked: list[tuple[Asked, Fault]], others: dict[bytes, str]) -> dict[Fault, Cause]:
    """Returns the cause, with its column, that each line with an error shows; None for a line of another dialect."""
    mistakes = [(one.first in others, fault, Mistake(fault.text, one.line.code)) for one, fault in asked if fault.refusal in OF_THE_LINE]
    found = {fault: mistake.of_others() if is_other else mistake.cause(fault.refusal == OF_THE_LINE[0])
             for is_other, fault, mistake in mistakes}
    # Some causes are named even if tools/import reads the line.
    readings = [fault for fault, cause in found.items() if cause and not any(text in cause[1] for text in CERTAIN)]
    for fault, own in zip(readings, as_own([fault.text for fault in readings]) if readings else []):
        found[fault] = None if own else found[fault]
    return found


def tell_causes(faults: list[Fault]) -> None:
    """Adds the usual cause to each error: of the rows of docs/ASSEMBLER.md with the same refusal and kind, the cause of the most similar
    line."""
    asked = [(Asked(fault.text, fault.refusal), fault) for fault in faults if fault.refusal in (*OF_THE_LINE, "! 34 TooFar")]
    if not asked:
        return
    rows: list[tuple[Asked, str]] = []
    others, takes = other_names(), operands()
    for deck, refusal, why in tables_of(section_of("ASSEMBLER.md", "If you see…"))[0]:
        lines = codes_of(deck)
        name, number = codes_of(refusal)[0].rsplit(" ", 1)
        rows.append((Asked(lines[int(number)].encode(), name), plain(why)))
    classes = classes_of({name for one in [*(row for row, _ in rows), *(line for line, _ in asked)] for name in one.instructions()})
    unknown: list[tuple[Fault, str]] = []
    found = shown_causes(asked, others)
    for one, fault in asked:
        shown = found.get(fault)
        if shown:
            fault.told.append("column {}: {}".format(*shown))
            continue
        kind = one.kind(classes, others)
        like = [(row.first == one.first, SequenceMatcher(None, row.shape, one.shape).ratio(), why) for row, why in rows
                if row.refusal == one.refusal and (kind and row.kind(classes, others) == kind or row.first == one.first)
                and one.may_be_as(row, kind)]
        if kind == "another dialect":
            name, own = others[one.first], as_own([fault.text])[0]
            fault.told.append(f"{one.first.decode()} is a name of another dialect: write `{own}`, or convert the source with tools/import"
                              if own else
                              f"{one.first.decode()} is `{name}` of another dialect, and its operand cannot be "
                              f"read: `{name}` takes {takes.get(name) or example(name, kind_of(name, operations())) or 'no operand'}")
        elif like and not may_be_of_others(kind):
            fault.told.append(max(like)[-1])
        elif like or one.refusal == OF_THE_LINE[0]:
            unknown.append((fault, max(like)[-1] if like else Mistake(fault.text, one.line.code).unknown()))
        else:
            fault.told += [f"`{name}` takes {takes[name]}" for name in one.names() if name in takes]
    for (fault, cause), own in zip(unknown, as_own([fault.text for fault, _ in unknown])):
        fault.told.append(of_another_dialect(own) if own else cause)
