"""Causes of mistakes in a source line that the line itself shows: a number that is too large, an operation that the processor does not
have, the name of a register in place of its number. Each cause has the column of the text that is meant.

Only errors need this module."""
import re
import unicodedata
from difflib import get_close_matches
from functools import lru_cache
from typing import Collection, Optional

from . import keystroke_causes, line_causes, operand_causes
from .arithmetic import meant
from .dialect_causes import causes
from .dialects import FIELDS, LONG, OF_NUMBERS, REGISTERS, own_names, pairs
from .documents import codes_of, section_of, tables_of

GREATEST_WORD = 0x3FF

# Instructions with a status bit, and with a place.
OF_BITS, OF_PLACES = ("CLRF", "SETF", "?FSET"), ("R=", "?R=", "RCR")

# Instructions of other processors that copy a register.
OF_MOVES = ("MOV", "LD", "LDA", "STA", "LOAD", "STORE")

# Operations that the processor does not have, and what comes near.
NEAREST = {
    "A=B": "B=A copies the other way, and A<>B exchanges", "C=A": "A=C copies the other way, and A<>C exchanges",
    "B=C": "C=B copies the other way, and B<>C exchanges", "C=C-A": "C=A-C, and then C=0-C changes the sign",
    "A=C-A": "A=A-C, or C=A-C and then C=0-C", "A=B-A": "A=A-B",
    "LSHFC": "RCR 13 rotates C to the left, LSHFA shifts A, and RSHFC shifts C to the right",
    "LSHFB": "LSHFA shifts A, and RSHFB shifts B to the right",
    "A=A+A": "C=C+C", "B=B+B": "C=C+C", "?A=0": "?A#0, and then JNC in place of JC", "?B=0": "?B#0, and then JNC in place of JC",
    "?C=0": "?C#0, and then JNC in place of JC", "?A=C": "?A#C, and then JNC in place of JC",
    "?A=B": "C=B, then ?A#C, and then JNC in place of JC",
    "?A#B": "C=B, and then ?A#C", "?B#C": "A<>B, and then ?A#C", "?A>C": "A<>C, and then ?A<C", "?A>B": "A<>B, and then ?A<B",
    "?C<A": "A<>C, and then ?A<C", "?B<A": "A<>B, and then ?A<B", "?A<=C": "A<>C and ?A<C, and then JNC in place of JC",
    "?A>=C": "?A<C, and then JNC in place of JC", "?A>=B": "?A<B, and then JNC in place of JC",
    "A=-A": "A<>C, C=0-C and A<>C", "C=-C": "C=0-C", "A=NOTA": "A<>C, C=-C-1 and A<>C", "C=NOTC": "C=-C-1",
}
OPERATION = re.compile(r"\??[ABC](?:=|<>|#|<=|>=|<|>)\S*|[LR]SH?F?[ABC]|(?:SHL|SHR|ROL|ROR)\S*")
OF_A_CONSTANT = re.compile(r"([ABC])=(\d+)")
ADDED = re.compile(r"([ABC])=\1([+-])(\d+)")

SIGNS = {"“": "a curly quote: write \"", "”": "a curly quote: write \"", "‘": "a curly quote: write '", "’": "a curly quote: write '",
         "\xa0": "a no-break space: write a space", "\u2007": "a no-break space: write a space",
         "\u202f": "a no-break space: write a space", "\u200b": "a space without a width: remove it",
         "\ufeff": "a byte order mark: remove it",
         "−": "a minus sign: write -", "–": "a dash: write -", "—": "a dash: write -", "≠": "an unequal sign: write #",
         "；": "a wide semicolon: write ;", "„": "a curly quote: write \"", "«": "a quote of other languages: write \"",
         "»": "a quote of other languages: write \"",
         "→": "an arrow: a reference begins with a colon, and a result is written first, as in A=C ALL",
         "←": "an arrow: write =", "↔": "an arrow: write <>",
         "×": "a multiplication sign, and the processor does not multiply: C=C+C doubles C",
         "≤": "a sign for a test that the processor does not have: ?A<C with A and C exchanged, and JNC in place of JC",
         "≥": "a sign for a test that the processor does not have: ?A<C, and JNC in place of JC", "…": "an ellipsis: remove it"}
# Letters of other alphabets that look like these.
LOOK_ALIKE = dict(zip("АВСЕНКМОРТХУІЅΑΒΕΗΙΚΜΝΟΡΤΧΥΖ", "ABCEHKMOPTXYISABEHIKMNOPTXYZ"))


@lru_cache(None)
def operations() -> list[str]:
    """Returns the 32 operations on a field."""
    return [name for table in tables_of(section_of("PROCESSOR.md", "Arithmetic on a field")) for row in table for name in codes_of(row[1])]


def named(sign: str) -> str:
    """Returns a sign with its number."""
    return f"{sign} (U+{ord(sign):04X})" if sign.isprintable() and not unicodedata.combining(sign) else f"U+{ord(sign):04X}"


class Mistake:
    """A source line with an error, for which a cause is wanted."""

    def __init__(self, text: bytes, code: bytes) -> None:
        """Takes a source line, and its code without the label and the comment."""
        self.text = text.decode("utf-8", "replace")
        self.code = code.decode("utf-8", "replace")
        # Where the code begins in the line, and its words, each with its column.
        start = self.text.find(self.code) if code else 0
        self.words = [(start + found.start() + 1, found[0]) for found in re.finditer(r"[^ \t]+", self.code)]

    def name(self) -> tuple[str, list[tuple[int, str]]]:
        """Returns the instruction, which may have two words, and the words after it."""
        texts = [word for _, word in self.words]
        size = 2 if " ".join(texts[:2]) in self.names or " ".join(texts[:2]) in LONG else 1
        return " ".join(texts[:size]), self.words[size:]

    names: Collection[str] = ()

    def cause(self, is_bad_line: bool) -> Optional[tuple[int, str]]:
        """Returns the column and the cause; None if the line does not show one."""
        if not self.words:
            return None
        Mistake.names = Mistake.names or own_names() | {"NAME"}
        of_lines = ((self.early, self.colon, self.written_label, self.keystrokes, self.comment, self.case, self.letters, self.space)
                    if is_bad_line else (self.digits,))
        for reading in (self.signs, self.quotes, *of_lines, self.of_others, self.elsewhere, self.operation, self.two, self.label,
                        self.number, self.register, self.bit, self.page_label, *(() if is_bad_line else (self.operand,))):
            found = reading()
            if found:
                return found
        return self.statement() or self.likely() if is_bad_line else None

    def is_instruction(self, code: str) -> bool:
        """Returns whether a text begins with an instruction or a directive."""
        words = code.split()
        return bool(words) and any(name in self.names or name in operations() for name in (words[0], " ".join(words[:2])))

    def colon(self) -> Optional[tuple[int, str]]:
        """Finds a colon after an instruction, which the assembler reads as a label."""
        label = re.match(r"\s*(\w+):\s", self.text)
        if not label or label[1] not in self.names or self.is_instruction(self.code) or '"' in self.code:
            return None
        colon = "" if self.code[:1] in ":0123456789" else ":"
        return label.end(1) + 1, f"no colon is after an instruction: write {label[1]} {colon}{self.code}"

    def written_label(self) -> Optional[tuple[int, str]]:
        """Finds a label that is written otherwise, and a second one."""
        second = re.match(r"[A-Za-z]\w{0,11}:(?=\s|\Z)", self.code)
        if second and re.match(r"\s*[A-Za-z]\w{0,11}:\s", self.text) and self.words[0][0] > 2:
            return self.words[0][0], f"a line has one label: write {second[0]} in a line of its own"
        after = re.fullmatch(r"\s*([A-Za-z]\w{0,11});\s+(\S.*)", self.text)
        if after and self.is_instruction(after[2]) and not self.is_instruction(self.code):
            return after.end(1) + 1, f"the colon of the label is missing: write {after[1]}:"
        return line_causes.of_label(self.code, self.words[0][0], self.is_instruction)

    def keystrokes(self) -> Optional[tuple[int, str]]:
        """Finds a line of a keystroke program."""
        return None if self.is_instruction(self.code) or '"' in self.code else keystroke_causes.cause_of(self.words)

    def comment(self) -> Optional[tuple[int, str]]:
        """Finds a comment that begins with other signs."""
        return line_causes.of_comment(self.code, self.words[0][0])

    def case(self) -> Optional[tuple[int, str]]:
        """Finds an instruction in lower case."""
        return line_causes.of_case(self.words, {*self.names, *operations()}, self.code)

    def letters(self) -> Optional[tuple[int, str]]:
        """Finds a letter in place of a digit in an instruction."""
        return line_causes.of_letters(self.words, [*self.names, *operations()])

    def space(self) -> Optional[tuple[int, str]]:
        """Finds an operand that touches its instruction."""
        names = {*self.names, *operations()}
        return line_causes.of_no_space(self.words, names, {name for name in names if operand_causes.kind_of(name, operations()) != "none"})

    def operand(self) -> Optional[tuple[int, str]]:
        """Finds what is wrong with the operand."""
        name, rest = self.name()
        if name not in self.names and name not in operations():
            return None
        start = self.words[0][0] - 1
        after = start + len(self.code.rstrip()) + 1 if not rest else rest[0][0]
        return operand_causes.cause_of(name, rest, after, operand_causes.kind_of(name, operations()))

    def digits(self) -> Optional[tuple[int, str]]:
        """Finds a letter in place of a digit, and a decimal number."""
        found = self.operand()
        return found if found and any(text in found[1] for text in ("letter in place of", "decimal number:")) else None

    def early(self) -> Optional[tuple[int, str]]:
        """Finds a statement of another language that looks like a line of another assembler."""
        return self.statement() if line_causes.EARLY.match(self.code) else None

    def statement(self) -> Optional[tuple[int, str]]:
        """Finds a statement of another language."""
        return line_causes.of_statement(self.code, self.words[0][0])

    def of_others(self) -> Optional[tuple[int, str]]:
        """Finds the form of a line of another assembler. An operation must be one that the processor has, with its operands in either
        order."""
        for offset, cause in causes(self.code):
            if cause.startswith("a name of a function") and '"' not in self.code and "'" not in self.code:
                continue
            form = re.search(r"written ([ABC])=([ABC])([-+])([ABC]) ", cause)
            if form and "{}={}{}{}".format(*form.groups()) not in operations() and form[3] == "+":
                cause = cause.replace(form[0], f"written {form[1]}={form[4]}+{form[2]} ")
            form = re.search(r"written ([ABC])<>([ABC]) ", cause)
            if form and form[1] > form[2]:
                cause = cause.replace(form[0], f"written {form[2]}<>{form[1]} ")
            form = re.search(r"written (\??[ABC](?:=|<>|#)\S+|[LR]SHF[ABC]) ", cause)
            if form and form[1] not in operations():
                cause = f"the processor has no {form[1]}" + (f": {NEAREST[form[1]]}" if form[1] in NEAREST else "")
            return self.text.find(self.code) + offset + 1, cause
        return None

    def signs(self) -> Optional[tuple[int, str]]:
        """Finds characters that look like others."""
        for at, sign in enumerate(self.text.split(";")[0] if '"' not in self.text else self.code):
            column = at + 1 + (0 if '"' not in self.text else self.text.find(self.code))
            if sign in SIGNS:
                return column, f"{named(sign)} is {SIGNS[sign]}"
            plain = LOOK_ALIKE.get(sign) or unicodedata.normalize("NFKC", sign)
            if not sign.isascii() and plain.isascii() and plain.isprintable() and plain != sign:
                return column, f"{named(sign)} only looks like {plain}: write {plain}"
            if not sign.isascii():
                return column, f"{named(sign)} is not a character of sources, which are in ASCII before the comment"
        return None

    def quotes(self) -> Optional[tuple[int, str]]:
        """Finds a quote without its other one."""
        if self.code.count('"') % 2:
            return self.text.rfind('"') + 1, "the other quote is missing"
        if re.match(r"NAME[ \t]+'[^']*'", self.code):
            return self.words[1][0], "a name is in double quotes: NAME \"KIT\""
        return None

    def body(self) -> str:
        """Returns the operation without spaces and without its field."""
        return line_causes.parts_of([word for _, word in self.words])[0].rstrip(";,")

    def operation(self) -> Optional[tuple[int, str]]:
        """Finds an operation that the processor does not have."""
        column, first = self.words[0]
        flat = "".join(word for _, word in self.words) if len(self.words) > 2 and self.words[1][1] == "=" else first
        body = self.body()
        registers = (line_causes.of_registers(flat, column) or line_causes.of_exchange(body, column)
                     or line_causes.of_special(body, column) or line_causes.of_condition(self.words))
        if first in self.names or registers or not OPERATION.fullmatch(flat) or flat in operations():
            is_own = first in self.names or first in operations()
            return registers or (None if is_own else line_causes.of_operation(self.code, column, operations()))
        added, constant = ADDED.fullmatch(flat), OF_A_CONSTANT.fullmatch(flat)
        if flat in NEAREST:
            return column, f"the processor has no {flat}: {NEAREST[flat]}"
        own = line_causes.of_operation(self.code, column, operations())
        if own:
            return own
        if added and added[3] not in "01":
            return column, f"the processor has no {flat}: it adds and subtracts only 1; or put the number into C with LDI or LD@R"
        if constant:
            return column, f"the processor has no {flat}: LDI puts a word into C, and LD@R a digit"
        near = get_close_matches(flat, operations(), 3, 0.5)
        return column, f"the processor has no {flat}{f': the nearest are {chr(32).join(near)}' if near else ''}"

    def elsewhere(self) -> Optional[tuple[int, str]]:
        """Finds an instruction of another processor."""
        column, first = self.words[0]
        if first.upper() in OF_MOVES:
            flat = meant(self.code)
            more = f"; the processor has no {flat}: {NEAREST[flat]}" if flat in NEAREST else ""
            return column, (f"{first} is an instruction of another processor: here a copy is written as A=C, LDI puts a word into C, and "
                            f"READ a register{more}")
        return line_causes.of_elsewhere(self.words, self.code, self.names, operations())

    def two(self) -> Optional[tuple[int, str]]:
        """Finds two instructions in one line."""
        name, rest = self.name()
        if name not in self.names and name not in operations():
            return None
        for at in range(len(rest)):
            column, word = rest[at]
            two = f"{word} {rest[at + 1][1]}" if rest[at + 1:] else ""
            if (word in self.names or word in operations() or two in self.names) and word not in FIELDS:
                return column, f"a line has one instruction: write {two if two in self.names else word} in a line of its own"
        return None

    def label(self) -> Optional[tuple[int, str]]:
        """Finds a name in place of a reference after a short or long jump, and a number in place of a displacement."""
        name, rest = self.name()
        if name in ("JNC", "JC") and len(rest) == 1 and re.fullmatch("[0-9A-F]{4}", rest[0][1]):
            return rest[0][0], (f"a short jump takes a label or a displacement; to jump to the address {rest[0][1]} write "
                                f"?{name[1:]} GO {rest[0][1]}")
        return None

    def number(self) -> Optional[tuple[int, str]]:
        """Finds a number that is too large, or written in another base."""
        name, rest = self.name()
        if len(rest) != 1:
            return None
        column, text = rest[0]
        if name in ("LDI", "CON") and re.fullmatch("[0-9A-Fa-f]{3,}", text) and int(text, 16) > GREATEST_WORD:
            return column, operand_causes.above(text)
        if name in OF_NUMBERS and re.fullmatch(r"\$\w+|0x\w+|#\w+|[0-9A-F]+H|0\d+", text) and name not in OF_PLACES and name != "LD@R":
            return self.operand() or (column, f"found {text}, expected " + operand_causes.example(name, operand_causes.kind_of(name, operations())))
        if name in LONG and re.fullmatch("[0-9A-Fa-f]{1,3}|[0-9A-Fa-f]{5,}", text):
            return column, f"{text} has {len(text)} {'digit' if len(text) == 1 else 'digits'}: an address has four, for example 8010"
        return None

    def register(self) -> Optional[tuple[int, str]]:
        """Finds the name of a register of the stack, or of memory, in place of its number."""
        name, rest = self.name()
        if name not in ("READ", "WRIT") or len(rest) != 1 or rest[0][1] not in REGISTERS or rest[0][1] == "A":
            return None
        number = REGISTERS.index(rest[0][1])
        own = "READ DATA" if name == "READ" and number == 0 else f"{name} {number}"
        return rest[0][0], f"{rest[0][1]} is register {number}: write {own}"

    def bit(self) -> Optional[tuple[int, str]]:
        """Finds the number of a flag in place of that of a status bit."""
        name, rest = self.name()
        if name not in OF_BITS or len(rest) != 1 or not rest[0][1].isdecimal() or int(rest[0][1]) < 14:
            return None
        return rest[0][0], f"the status bits are 0 to 13; flag {int(rest[0][1])} of programs is in register d: READ 14"

    def page_label(self) -> Optional[tuple[int, str]]:
        """Finds a label of another page."""
        for column, word in self.words[1:]:
            if re.fullmatch(r":[A-Za-z]\w{0,11}\.[A-Za-z]\w{0,11}", word):
                return column, f"{word[1:]} is a label of another page, which only a project of tools/module has"
            if re.fullmatch(r":[A-Za-z_]\w{12,}", word):
                return column, f"{word[1:]} has {len(word) - 1} characters: a name has at most 12"
        return None

    def unknown(self) -> str:
        """Returns what is reported for a line that shows no cause."""
        wanted = "expected a label, a mnemonic or a directive"
        if re.fullmatch(r"[A-Za-z]\w{0,11}", self.code) and self.words[0][0] == 1:
            wanted = f"expected a mnemonic or a directive; if it is a label, its colon is missing: write {self.code}:"
        return f"column {self.words[0][0]}: found {self.words[0][1]}, {wanted}" if self.words else wanted

    def likely(self) -> Optional[tuple[int, str]]:
        """Returns what a word that is no instruction may be."""
        column, first = self.words[0]
        if not re.match(r"[A-Za-z?0-9]", first):
            return None
        found = re.fullmatch(r"(\w{13,}):", first)
        if found:
            return column, f"{found[1]} has {len(found[1])} characters: a name has at most 12"
        if re.fullmatch(r"\d\w*:", first):
            return column, f"{first[:-1]} begins with a digit: a name begins with a letter"
        if ":" in first:
            return None
        if len(self.words) > 2 and sum(word.isalpha() and not word.isupper() for _, word in self.words) > 1:
            return column, "no instruction; if this is a comment, begin it with ;"
        two = " ".join(word for _, word in self.words[:2])
        near = get_close_matches(two.upper(), [name for name in self.names if " " in name], 1, 0.8) if self.words[1:] else []
        near = [name for name in self.names if sorted(name) == sorted(first.upper()) and len(first) > 2] or near
        if near and near[0] != two.upper():
            return column, f"no instruction {two if ' ' in near[0] else first}; the nearest is {near[0]}"
        near = line_causes.one_off(first.upper(), {*self.names, *operations()}) if len(first) > 2 else []
        if near:
            return column, f"no instruction {first}; the nearest {'is' if len(near) == 1 else 'are'} {' and '.join(near)}"
        near = get_close_matches(first.upper(), [*self.names, *operations()], 1, 0.7)
        if near and near[0] != first.upper():
            return column, f"no instruction {first}; the nearest is {near[0]}"
        others = {other: here for other, here in pairs() if " " not in other}
        near = get_close_matches(first.upper(), others, 1, 0.7)
        return (column, f"no instruction {first}; the nearest of other dialects is {near[0]}, here {others[near[0]]}") if near else None
