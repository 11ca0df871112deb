"""Reads claims: the comments before a label as a contract."""
from __future__ import annotations

import re
from dataclasses import replace

from .claims import (CONDITIONS, END, FIELDS, KEYWORDS, LAST_PLACE, LAST_STATUS, MEMORY, NAMED, NUMBERS, RELATIONS, STACK, WIDE, AnyClaim, Atom,
                     Claim, Contract, Decimal, Measure, Named, Others, Steps, Sum, Token, WordReader, Wrong, check_spelling)

# A comment that begins a claim, or continues one that ends in a comma.
COMMENT = re.compile(r"[ \t]*;[ \t]*(?:(" + "|".join(KEYWORDS) + r")\b)?")
TOKEN = re.compile(r"[A-Za-z]+[0-9]*(?:\.[A-Za-z&]+)?|[0-9][0-9A-Fa-f]*|<=|>=|<>|[-+*=<>(),:\[\]]|\S")
NUMBER = re.compile("[0-9][0-9A-Fa-f]*")
HEXADECIMAL = re.compile("[A-F]+[0-9]*")
STATUS = re.compile("S([0-9]+)")

FIELD = "one of the fields SX, XS, M, MS and ALL after the point, or places as in C[5:3]"
REGISTERS = ("a register (A B C M N, or X Y Z L REG[0FA] in memory), with a field as in C.SX or places as in C[5:3], BCD(C.M), G, T, P, Q, "
             "CY, ST, RAM or a status bit as in S8")
STEPS = ("steps", "step")
COUNT = "a number of steps, as in `within 3 steps` or `in 4 * C.SX + 2 steps`"


class Reader(WordReader):
    """Reads the claims after one keyword."""

    # Whether a number of steps is being read.
    is_counting = False

    def operand(self) -> str:
        """Returns what is expected in place of a term."""
        return COUNT if self.is_counting else REGISTERS

    def number(self) -> int | None:
        """Returns the number that is next: decimal in a number of steps, otherwise hexadecimal."""
        word = self.now()
        if self.at == len(self.tokens) or not NUMBER.fullmatch(word.text):
            return None
        if self.is_counting and not word.text.isdigit():
            self.fail("a decimal number, because a number of steps is decimal")
        self.at += 1
        return int(word.text, 10 if self.is_counting else 16)

    def place(self) -> int:
        """Returns a place of a register, which is decimal."""
        word = self.now()
        if not word.text.isdigit() or int(word.text) > LAST_PLACE:
            self.fail("a place from 0 to 13")
        self.at += 1
        return int(word.text)

    def atom(self, old: bool) -> Atom:
        """Returns the atom that is next."""
        if self.take("BCD"):
            self.want("(")
            word = self.now()
            found = self.atom(self.old() or old)
            if found.lo is None:
                self.fail("a register of 14 digits, with a field as in C.SX or places as in C[5:3]", word)
            self.want(")")
            return replace(found, base=10)
        word = self.now()
        status = STATUS.fullmatch(word.text)
        if status and int(status[1]) <= LAST_STATUS or word.text in NUMBERS:
            self.at += 1
            return Atom(word.text, old=old)
        name, dot, part = word.text.partition(".")
        if HEXADECIMAL.fullmatch(word.text) and word.text not in WIDE:
            self.fail("a number that begins with a digit, as in 0FF")
        if name not in (*WIDE, *STACK, "REG") or self.at == len(self.tokens):
            self.fail(self.operand())
        if dot and part not in FIELDS:
            self.fail(FIELD)
        self.at += 1
        address = self.address() if name == "REG" and not dot else STACK.get(name)
        if not dot and name == "REG" and self.take("."):
            dot, part = ".", self.take(*FIELDS) or self.fail(FIELD)
        lo, hi = FIELDS[part] if dot else self.places()
        return Atom("REG" if address is not None else name, lo, hi, old, address)

    def old(self) -> bool:
        """Returns whether `old` is next, and goes on."""
        word = self.now()
        found = bool(self.take("old"))
        if found and self.keyword == "requires":
            self.fail("no `old`, because `requires` is about the state in which the function begins", word)
        return found

    def address(self) -> int:
        """Returns the address of a register of memory."""
        self.want("[")
        word = self.now()
        if not NUMBER.fullmatch(word.text) or not any(first <= int(word.text, 16) <= last for first, last in MEMORY):
            self.fail("the address of a register of memory, from 000 to 00F or from 0C0 to 1FF")
        self.at += 1
        self.want("]")
        return int(word.text, 16)

    def places(self) -> tuple[int, int]:
        """Returns the places in brackets, or all places if there are none."""
        if not self.take("["):
            return 0, LAST_PLACE
        hi = self.place()
        lo = self.place() if self.take(":") else hi
        if lo > hi:
            self.fail("a place that is not higher than the one before it", self.tokens[self.at - 1])
        self.want("]")
        return lo, hi

    def term(self) -> Sum:
        """Returns a term: a number, an atom, a multiple, or a sum in parentheses."""
        number = self.number()
        if number is not None:
            return self.term().times(number) if self.take("*") else Sum((), number)
        if self.take("("):
            found = self.sum()
            self.want(")")
        else:
            old = self.old()
            if self.at == len(self.tokens):
                self.fail(COUNT if self.is_counting else f"{REGISTERS}, or a number")
            found = Sum(((1, self.atom(old)),))
        if self.now().text == "*":
            is_number = any(NUMBER.fullmatch(token.text) for token in self.tokens[self.at + 1:self.at + 2])
            self.fail("the number of a multiple first, as in `4 * C.SX`" if is_number else
                      "no product of two registers: a claim compares sums, and a multiple has a number, as in `4 * C.SX`")
        if self.now().text == "/":
            self.fail("no quotient: a claim compares sums, so write a multiple on the other side, as in `2 * C.SX <= old C.SX`")
        return found

    def sum(self) -> Sum:
        """Returns a sum of terms."""
        found = self.term()
        while True:
            sign = self.take("+", "-")
            if not sign:
                return found
            found = found.plus(self.term().times(1 if sign == "+" else -1))

    def text_from(self, first: int) -> str:
        """Returns the words from one on, with single spaces."""
        text = " ".join(token.text for token in self.tokens[first:self.at])
        text = re.sub(r" ?([\[\]:,)]) ?", r"\1 ", text).replace(" [", "[").replace("[ ", "[").replace(": ", ":").replace(" ]", "]")
        return text.replace("( ", "(").replace("BCD (", "BCD(").replace("] . ", "].").replace("] [", "][").strip()

    def steps(self) -> Steps:
        """Returns a claim on the number of steps."""
        first, begin = self.at, self.now()
        is_exact = self.want("in", "within") == "in"
        self.is_counting = True
        count = self.sum()
        self.is_counting = False
        text = self.text_from(first)
        if not self.take(*STEPS):
            self.fail(f"`steps`, as in `{text} steps`")
        if any(many < 0 for many, _ in count.parts) or count.constant < 0:
            raise Wrong(begin.line, begin.column, f"found `{text}`, in which a term is negative, expected a sum without subtraction: claim a "
                                                  "number that is large enough, with `within`")
        before = Sum(tuple((many, replace(atom, old=True)) for many, atom in count.parts), count.constant)
        return Steps(before, is_exact, self.text_from(first), begin.line)

    def check_steps(self, known: Steps | None) -> None:
        """Raises an error if a claim is about a number of steps, and is written otherwise, or is a second one."""
        word, texts = self.now(), [token.text for token in self.tokens[self.at:]]
        texts = texts[:texts.index(",")] if "," in texts else texts
        is_counted = word.text in ("in", "within")
        if self.keyword != "ensures" and (is_counted or word.text == "returns"):
            self.fail("a claim about registers, because only `ensures` says in how many steps the function returns")
        if is_counted and known:
            self.fail(f"one number of steps, because `{known.text}` is claimed already")
        if not is_counted and any(text in STEPS for text in texts) and (word.text.islower() or texts[1:2] and texts[1] in STEPS):
            self.fail("`within` for at most so many steps, or `in` for exactly so many, as in `within 3 steps`" if self.keyword == "ensures" else
                      "a claim about registers, because only `ensures` says in how many steps the function returns")

    def unchanged(self) -> None:
        """Reads `as before`, or `is unchanged` or `are unchanged`."""
        if self.take("is", "are"):
            self.want("unchanged")
        else:
            self.want("as")
            self.want("before")

    def as_before(self, atom: Atom, first: int, line: int) -> Claim:
        """Returns the claim that a number is as before."""
        return Claim(Sum(((1, atom),)), "=", Sum(((1, replace(atom, old=True)),)), self.text_from(first), line)

    def comparison(self) -> list[AnyClaim]:
        """Returns the claims of a comparison, or of `as before`."""
        first, line = self.at, self.now().line
        if self.now().text in NAMED:
            if self.now().text == "BANK" and self.keyword != "ensures":
                self.fail("no `BANK`, because a label is in one bank: only `ensures` can name another one")
            name = self.want(*NAMED)
            self.want("=")
            return [Named(name, self.want(*NAMED[name]), self.text_from(first), line)]
        left = self.sum()
        atom = next(left.atoms(), None)
        is_atom = atom is not None and left == Sum(((1, atom),))
        follows = [token.text for token in self.tokens[self.at:self.at + 2]]
        if atom and is_atom and self.keyword != "requires" and (follows[:1] == ["as"] or follows == ["is", "unchanged"]):
            self.unchanged()
            return [self.as_before(atom, first, line)]
        if follows[:1] == ["is"] and atom and is_atom and atom.lo is not None:
            self.want("is")
            self.want("BCD")
            return [Decimal(atom, self.text_from(first), line)]
        relation = self.take(*RELATIONS)
        if not relation:
            self.fail("one of the signs = <> < <= > >=" + ("" if self.keyword == "requires" else ", or `as before`"))
        return [Claim(left, relation, self.sum(), self.text_from(first), line)]


def others(reader: Reader, found: list[AnyClaim]) -> list[AnyClaim]:
    """Returns the claims of `other digits of C as before`: the digits that no other claim names; or that of `other registers as before`:
    the registers of memory that no other claim names."""
    first, line = reader.at, reader.now().line
    reader.want("other")
    named = [one for claim in found for one in claim.atoms() if not one.old]
    if reader.want("digits", "registers") == "registers":
        reader.unchanged()
        addresses = {one.address for one in named if one.address is not None}
        return [Others(tuple(sorted(addresses)), reader.text_from(first), line)]
    reader.want("of")
    word = reader.now()
    atom = reader.atom(False)
    if (atom.lo, atom.hi) != (0, LAST_PLACE):
        reader.fail("a register without a field", word)
    reader.unchanged()
    places = {place for one in named if (one.name, one.address) == (atom.name, atom.address) and one.lo is not None
              for place in range(one.lo, (one.hi or 0) + 1)}
    claims: list[AnyClaim] = []
    for lo, hi in runs_of(sorted(set(range(LAST_PLACE + 1)) - places)):
        claims.append(reader.as_before(replace(atom, lo=lo, hi=hi), first, line))
    return claims


def runs_of(places: list[int]) -> list[tuple[int, int]]:
    """Returns the runs of consecutive places, each with its first and last place."""
    runs: list[tuple[int, int]] = []
    for place in places:
        if runs and runs[-1][1] == place - 1:
            runs[-1] = runs[-1][0], place
        else:
            runs.append((place, place))
    return runs


def read_claims(reader: Reader, contract: Contract) -> None:
    """Reads claims up to the end, and adds them to a contract."""
    found = getattr(contract, reader.keyword)
    later: list[int] = []
    while True:
        word = reader.now().text
        reader.check_steps(contract.steps)
        if word in ("in", "within"):
            contract.steps = reader.steps()
        elif word == "returns" and reader.keyword == "ensures":
            reader.want("returns")
        elif word == "other" and reader.keyword != "requires":
            later.append(reader.at)
            others(reader, [])
        else:
            found += reader.comparison()
        if reader.at == len(reader.tokens):
            break
        if reader.now().text in CONDITIONS:
            reader.fail("`,`: all claims of a list are true; for cases, see Cases in docs/PROVE-YOUR-MODULE.md")
        if reader.now().text in RELATIONS:
            reader.fail("`,`: a claim has one comparison, as in `1 <= C.SX, C.SX <= 9`")
        reader.want(",")
    for at in later:
        reader.at = at
        found += others(reader, found)


def read_keyword(keyword: str, tokens: list[Token], end: Token, contract: Contract) -> None:
    """Reads what follows one keyword."""
    reader = Reader(keyword, tokens, end)
    if keyword != "decreases":
        return read_claims(reader, contract)
    contract.decreases = reader.sum()
    contract.measure = Measure(f"decreases {reader.text_from(0)}", tokens[0].line)
    if reader.at < len(tokens):
        reader.fail(END)
    return None


def tokens_of(text: str, line: int, first: int) -> list[Token]:
    """Returns the words of a comment from a column on."""
    return [Token(found[0], line, found.start() + 1) for found in TOKEN.finditer(text, first)]


def contract_before(lines: list[str], label: int) -> Contract | None:
    """Returns the contract in the comments directly before a line, which is counted from 0; None if there is none. A keyword begins a
    group of claims; a comment without a keyword continues it if the line before it ends with a comma."""
    first = label
    while first and lines[first - 1].lstrip(" \t").startswith(";"):
        first -= 1
    groups: list[tuple[str, list[Token], Token]] = []
    for at in range(first, label):
        found = COMMENT.match(lines[at])
        tokens = tokens_of(lines[at], at + 1, found.end() if found else 0)
        end = Token(END, at + 1, len(lines[at].rstrip()) + 1)
        if found and not found[1] and tokens:
            check_spelling(tokens[0].text, lines[at][found.end():], at + 1, tokens[0].column)
        if found and found[1]:
            groups.append((found[1], tokens, end))
        elif groups and groups[-1][1][-1:] and groups[-1][1][-1].text == "," and tokens:
            groups[-1] = (groups[-1][0], groups[-1][1] + tokens, end)
    if not groups:
        return None
    contract = Contract((groups[0][1] or [groups[0][2]])[0].line)
    for keyword, tokens, end in groups:
        read_keyword(keyword, tokens, end, contract)
    return contract


def check_places(lines: list[str], labels: set[int]) -> None:
    """Checks that all claims are directly before a line with a label; these lines are counted from 0. A comment that is not read as claims
    may be anywhere."""
    for at, line in enumerate(lines):
        found = COMMENT.match(line)
        if not found or not found[1]:
            continue
        after = next((more for more in range(at, len(lines)) if not lines[more].lstrip(" \t").startswith(";")), len(lines))
        if after in labels:
            continue
        try:
            contract_before(lines, after)
        except Wrong:
            continue
        raise Wrong(at + 1, found.start(1) + 1, "these claims belong to no label, expected a line with a label directly after the comments")
