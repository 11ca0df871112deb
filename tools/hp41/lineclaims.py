"""The language of claims about keystroke programs: what comments before a label require and ensure of the stack and the data registers."""
from __future__ import annotations

import re
from dataclasses import dataclass, field, replace
from decimal import Decimal

from .claims import CONDITIONS, END, Token, WordReader, check_spelling

# The registers of the stack, and data registers such as R05.
STACK = ("X", "Y", "Z", "T", "L")
DATA = re.compile("R([0-9]{2})")

NUMBER = re.compile(r"(?:[0-9]+\.?[0-9]*|\.[0-9]+)(?:E-?[0-9]{1,2})?")
TOKEN = re.compile(rf"1/X(?= ?\()|{NUMBER.pattern}|X\^2|[A-Za-z]+[0-9]*|<=|>=|<>|[-+*/=<>(),]|\S")
LISTED = re.compile(r"[ \t]*(?:[0-9]{1,4}[.:)]?[ \t]+)?(?:#|;|//)[ \t]*")
WORD = re.compile("[A-Za-z]+")

# Functions of one number, in the form NAME(NUMBER).
FUNCTIONS = ("ABS", "CHS", "SIGN", "X^2", "SQRT", "1/X", "INT", "FRC", "COUNT", "FINAL")
ERRORS = ("OUT OF RANGE", "DATA ERROR")
RELATIONS = ("<=", ">=", "<>", "=", "<", ">")
OPPOSITE = {"<": ">=", ">=": "<", "<=": ">", ">": "<=", "=": "<>", "<>": "="}
REGISTER = "a register (X Y Z T L, or R00 to R99)"
LOOP = ("invariant", "decreases")


@dataclass(frozen=True)
class Term:
    """A value: `old` and the name of a register before the program; `now` and that of a register at the place of the claim; `number` and
    the text of a number; `zero`; `pi`; an operation with its terms, named as the calculator's function; `counter` with its count and its final
    count, which are unknown if its name says so; `left`, the content of a register that a
    subroutine or an earlier round has left, with the name of a variable, and its value if that is known; or `whole`, a whole number with
    the name of a variable. `origin` says in words what an unknown content is."""
    op: str
    args: tuple[Term, ...] = ()
    name: str = ""
    origin: str = ""

    def plain(self) -> Term:
        """Returns the value, without the registers in which subroutines and rounds have left its parts."""
        if self.op == "left" and self.args:
            return self.args[0].plain()
        return replace(self, args=tuple(one.plain() for one in self.args)) if self.args else self

    def text(self) -> str:
        """Returns the term as a claim has it."""
        if self.op == "left":
            return self.args[0].text() if self.args else self.origin
        if self.op == "whole":
            return self.origin
        if self.op == "now":
            return self.name
        if self.op == "old":
            return f"old {self.name}"
        if self.op in ("number", "zero", "pi"):
            return self.name or "0"
        if self.op == "counter":
            return f"a counter with the count {plain(self.args[0].text())} and the final count {plain(self.args[1].text())}"
        if len(self.args) == 1:
            return f"{self.op}({plain(self.args[0].text())})"
        return f"({self.args[0].text()} {self.op} {self.args[1].text()})"

    def parts(self) -> list[Term]:
        """Returns the term and the terms in it, each once, those in it first."""
        found: list[Term] = []
        for one in self.args:
            found += [part for part in one.parts() if part not in found]
        return [*found, self]


def old(name: str) -> Term:
    """Returns the value of a register before the program."""
    return Term("old", (), name)


ZERO, PI = Term("zero"), Term("pi", (), "PI")


def plain(text: str) -> str:
    """Returns a text in parentheses without them."""
    return text[1:-1] if text.startswith("(") else text


@dataclass(frozen=True)
class Condition:
    """A comparison of two terms: `<`, `<=` or `=`, and whether it is true or false."""
    relation: str
    left: Term
    right: Term
    is_true: bool = True

    def plain(self) -> Condition:
        """Returns the condition of the values, if it is one of numbers. A comparison with `=` is one of registers."""
        return self if self.relation == "=" else replace(self, left=self.left.plain(), right=self.right.plain())


def condition_of(left: Term, relation: str, right: Term) -> Condition:
    """Returns the condition of a comparison."""
    if relation in (">", ">="):
        left, right = right, left
        relation = {">": "<", ">=": "<="}[relation]
    return Condition("=", left, right, False) if relation == "<>" else Condition(relation, left, right)


@dataclass(frozen=True)
class Equation:
    """A claim that a register contains a value, perhaps under a condition. `text` is its text, `line` its line, counted from 1."""
    register: str
    value: Term
    condition: Condition | None
    text: str
    line: int


@dataclass(frozen=True)
class Relation:
    """A claim that compares two sums of whole numbers. `text` is its text, `line` its line, counted from 1."""
    left: Term
    relation: str
    right: Term
    text: str
    line: int


@dataclass
class LoopContract:
    """The claims before the label of a loop: which registers contain whole numbers and which are as before, what is true of the whole
    numbers at the label, and what each round makes smaller."""
    line: int
    wholes: dict[str, int] = field(default_factory=dict)
    counters: dict[str, int] = field(default_factory=dict)
    kept: dict[str, tuple[Term, str, int]] = field(default_factory=dict)
    relations: list[Relation] = field(default_factory=list)
    decreases: Term | None = None
    measure: str = ""
    measure_line: int = 0


@dataclass
class LineContract:
    """The claims before a label. `line` is the line of the first of them. `loop` has the claims about a loop."""
    line: int
    loop: LoopContract
    wholes: dict[str, int] = field(default_factory=dict)
    counters: dict[str, int] = field(default_factory=dict)
    relations: list[Relation] = field(default_factory=list)
    has_own: bool = False
    numbers: dict[str, int] = field(default_factory=dict)
    in_range: list[tuple[Term, int]] = field(default_factory=list)
    equations: list[Equation] = field(default_factory=list)
    errors: list[str] = field(default_factory=list)
    most: tuple[int, str, int] | None = None
    is_lift_on: bool = False


class LineReader(WordReader):
    """Reads the claims about a program after one keyword."""

    def text_from(self, first: int) -> str:
        """Returns the words from one on, with single spaces."""
        text = " ".join(token.text for token in self.tokens[first:self.at])
        return re.sub(r"(\w) \(", r"\1(", re.sub(r"\( ", "(", re.sub(r" ([),])", r"\1", text))) if "(" in text else text

    def register(self) -> str:
        """Returns the register that is next."""
        word = self.now()
        if word.text not in STACK and not DATA.fullmatch(word.text):
            self.fail(REGISTER)
        self.at += 1
        return word.text

    def factor(self) -> Term:
        """Returns a register, a number, a function or a sum in parentheses."""
        word = self.now()
        if self.take("-"):
            found = self.factor()
            if found.op != "number":
                return Term("CHS", (found,))
            return Term("number", (), found.name[1:] if found.name.startswith("-") else f"-{found.name}")
        if NUMBER.fullmatch(word.text):
            self.at += 1
            return ZERO if Decimal(word.text) == 0 else Term("number", (), word.text)
        if self.take("("):
            found = self.sum()
            self.want(")")
            return found
        if self.take("PI"):
            return PI
        if word.text in FUNCTIONS and self.take(word.text):
            self.want("(")
            found = self.sum()
            self.want(")")
            return Term(word.text, (found,))
        if self.keyword == "requires" and word.text == "old":
            self.fail("no `old`, because `requires` is about the state before the program", word)
        is_old = bool(self.take("old"))
        if self.keyword == "ensures" and not is_old:
            self.fail("`old` and a register, for example `old X`, a number, or a function, for example ABS(..)")
        return old(self.register()) if is_old or self.keyword == "requires" else Term("now", (), self.register())

    def product(self) -> Term:
        """Returns products and quotients."""
        found = self.factor()
        while True:
            sign = self.take("*", "/", "MOD")
            if not sign:
                return found
            found = Term(sign, (found, self.factor()))

    def sum(self) -> Term:
        """Returns sums and differences."""
        found = self.product()
        while True:
            sign = self.take("+", "-")
            if not sign:
                return found
            found = Term(sign, (found, self.product()))

    def condition(self) -> Condition:
        """Returns the condition that is next."""
        left = self.sum()
        relation = self.take(*RELATIONS) or self.fail("one of the signs = <> < <= > >=")
        return condition_of(left, relation, self.sum())


def read_requires(reader: LineReader, contract: LineContract) -> None:
    """Reads a requirement: that registers contain numbers, that a result is in range, or that stack lift is on."""
    first, line = reader.at, reader.now().line
    if reader.take("stack"):
        for word in ("lift", "is", "on"):
            reader.want(word)
        contract.is_lift_on = True
        return
    values = [reader.sum()]
    relation = reader.take(*RELATIONS)
    if relation:
        contract.relations.append(Relation(values[0], relation, reader.sum(), reader.text_from(first), line))
        return
    while reader.take("and"):
        values.append(reader.sum())
    verb = reader.want("is", "are")
    if verb == "is" and reader.take("in"):
        reader.want("range")
        if len(values) > 1 or not values[0].args:
            reader.fail("one operation before `is in range`, for example `Y + X is in range`", reader.tokens[first])
        contract.in_range.append((values[0], line))
        return
    kind = read_kind(reader, verb)
    for value in values:
        if value.op != "old":
            reader.fail(f"{REGISTER} before `is a number`", reader.tokens[first])
        {"whole": contract.wholes, "counter": contract.counters, "": contract.numbers}[kind][value.name] = line


def read_kind(reader: LineReader, verb: str) -> str:
    """Reads `a number`, `a whole number` or `a counter` after `is`, or the plural after `are`. Returns `whole`, `counter`, or an empty
    text for other numbers."""
    article = verb == "is" and bool(reader.take("a"))
    if reader.take("counter" if article else "counters" if verb == "are" else ""):
        return "counter"
    is_whole = bool(reader.take("whole"))
    if verb == "is" and not (article and reader.take("number")):
        reader.fail("`a number` or `in range`")
    if verb == "are":
        reader.want("numbers")
    return "whole" if is_whole else ""


def read_invariant(reader: LineReader, contract: LineContract) -> None:
    """Reads what is true at the label of a loop: which registers contain whole numbers, or are as before, or a comparison."""
    first, line, loop = reader.at, reader.now().line, contract.loop
    names: list[str] = []
    while reader.now().text in STACK or DATA.fullmatch(reader.now().text):
        names.append(reader.register())
        if not reader.take("and"):
            break
    if names and reader.now().text == "as" or names and [one.text for one in reader.tokens[reader.at:reader.at + 2]] in (
            ["is", "unchanged"], ["are", "unchanged"]):
        unchanged(reader)
        loop.kept |= {name: (old(name), reader.text_from(first), line) for name in names}
    elif names and reader.now().text in ("is", "are"):
        kind = read_kind(reader, reader.want("is", "are"))
        if not kind:
            reader.fail("`a whole number`, `as before` or a comparison, because other numbers are not supported in `invariant`",
                        reader.tokens[first])
        (loop.wholes if kind == "whole" else loop.counters).update({name: line for name in names})
    else:
        reader.at = first
        left = reader.sum()
        relation = reader.take(*RELATIONS) or reader.fail("one of the signs = <> < <= > >=, `is a whole number` or `as before`")
        loop.relations.append(Relation(left, relation, reader.sum(), reader.text_from(first), line))


def read_decreases(reader: LineReader, contract: LineContract) -> None:
    """Reads the number that each round of a loop makes smaller."""
    first, loop = reader.at, contract.loop
    if loop.decreases:
        reader.fail("one number after `decreases`, because this loop has one already")
    loop.measure_line = reader.now().line
    loop.decreases = reader.sum()
    loop.measure = reader.text_from(first)


def read_ensures(reader: LineReader, contract: LineContract) -> None:
    """Reads what is claimed after the program: an equation, an error that is possible, or a number of lines."""
    first, line = reader.at, reader.now().line
    if reader.take("or"):
        error = " ".join(token.text for token in reader.tokens[reader.at:reader.at + 3])
        found = next((one for one in ERRORS if error.startswith(one)), None) or reader.fail("`OUT OF RANGE` or `DATA ERROR`")
        reader.at += len(found.split())
        contract.errors.append(found)
    elif reader.take("within"):
        word = reader.now()
        if not word.text.isdigit():
            reader.fail("a number of lines")
        reader.at += 1
        reader.want("lines", "line")
        contract.most = int(word.text), reader.text_from(first), line
    elif reader.take("other"):
        reader.want("registers")
        unchanged(reader)
    elif not reader.take("returns"):
        read_equation(reader, contract, first, line)


def unchanged(reader: LineReader) -> None:
    """Reads `as before`, or `is unchanged` or `are unchanged`."""
    if reader.take("as"):
        reader.want("before")
    else:
        reader.want("is", "are")
        reader.want("unchanged")


def read_equation(reader: LineReader, contract: LineContract, first: int, line: int) -> None:
    """Reads the claim that a register contains a value, or that it is as before."""
    name = reader.register()
    if reader.now().text in ("as", "is"):
        unchanged(reader)
        value = old(name)
    else:
        if reader.now().text != "=":
            reader.fail("`=`, or `as before`")
        reader.want("=")
        value = reader.sum()
    condition = reader.condition() if reader.take("if") else None
    contract.equations.append(Equation(name, value, condition, reader.text_from(first), line))


def read_group(keyword: str, tokens: list[Token], end: Token, contract: LineContract) -> None:
    """Reads the claims after one keyword."""
    reader = LineReader(keyword, tokens, end)
    while True:
        {"requires": read_requires, "ensures": read_ensures, "invariant": read_invariant, "decreases": read_decreases}[keyword](
            reader, contract)
        if reader.at == len(tokens):
            return
        if reader.now().text in CONDITIONS and keyword == "ensures" and reader.now().text != "or":
            reader.fail("`,`: all claims of a list are true")
        if reader.now().text != "or":
            reader.want(",")


def keyword_of(text: str, line: int, column: int) -> str | None:
    """Returns the keyword with which a comment begins. A misspelled keyword is an error."""
    word = WORD.match(text)
    if not word:
        return None
    if word[0] in ("requires", "ensures", *LOOP):
        return word[0]
    check_spelling(word[0], text, line, column)
    return None


def contract_before(lines: list[str], label: int) -> LineContract | None:
    """Returns the contract in the comments directly before a line, which is counted from 0; None if there is none."""
    first = label
    while first and LISTED.match(lines[first - 1]):
        first -= 1
    groups: list[tuple[str, list[Token], Token]] = []
    for at in range(first, label):
        sign = LISTED.match(lines[at])
        begin = sign.end() if sign else 0
        keyword = keyword_of(lines[at][begin:], at + 1, begin + 1)
        tokens = [Token(found[0], at + 1, found.start() + 1)
                  for found in TOKEN.finditer(lines[at], begin + len(keyword or ""))]
        end = Token(END, at + 1, len(lines[at].rstrip()) + 1)
        if keyword:
            groups.append((keyword, tokens, end))
        elif groups and groups[-1][1][-1:] and groups[-1][1][-1].text == "," and tokens:
            groups[-1] = groups[-1][0], groups[-1][1] + tokens, end
    if not groups:
        return None
    first_line = (groups[0][1] or [groups[0][2]])[0].line
    contract = LineContract(first_line, LoopContract(first_line))
    for keyword, tokens, end in groups:
        contract.has_own |= keyword not in LOOP
        read_group(keyword, tokens, end, contract)
    return contract
