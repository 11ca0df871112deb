"""Sources in other dialects: translates their lines to the dialect of this assembler.

The names are in the table of docs/ASSEMBLER.md, section "Other dialects". This module has the forms of lines: labels, operands and
numbers. For each line there are some readings, the likeliest first; the bench decides which of them it can assemble. A line that it can
assemble as it is stays unchanged."""
import re
from dataclasses import dataclass, replace
from typing import Callable, Iterable, Iterator, Optional, Sequence

from .decks import LONGEST_LINE, block, refused, shown
from .documents import codes_of, pairs_of, section_of, tables_of
from .entries import entries
from .forms import with_letters, without_columns
from .matches import begin

FIELDS = ("@R", "S&X", "R<", "ALL", "P-Q", "XS", "M", "MS")
LONG, SHORT = ("?NC XQ", "?C XQ", "?NC GO", "?C GO"), ("JNC", "JC")
OF_NUMBERS = ("CLRF", "SETF", "?FSET", "?R=", "R=", "RCR", "LD@R", "WRIT", "READ")
OF_LABELS, OF_WORDS = ("ENTRY", "FOCAL"), ("LDI", "CON")

# Errors that a line has on its own.
OF_THE_LINE = ("! 30", "! 31")

GREATEST_WORD = 0x3FF

# Characters of texts that are not ASCII, and their replacements.
SIGNS = {"≠": "#", "↔": "<>", "−": "-", "–": "-"}
# The names that can follow the number of a register, as in `3(X)`.
REGISTERS = "TZYXLMNOPQ+abcde"

CODE = re.compile(r'(?:[^;"]|"[^"]*"|"[^"]*\Z)*')
NAME = r"[A-Za-z]\w{0,11}"
LABEL = re.compile(rf"\s*({NAME}):\s*(.*)", re.A)
IN_FRONT = re.compile(rf"\[?({NAME})\]?(?::|(?=\s)|\Z)\s*(.*)", re.A)
REFERENCE = re.compile(rf":?\[?\(?:?({NAME})\)?\]?", re.A)
NUMBER = re.compile(r"([0-9]{1,2}|[A-F])(?:[(/](.)\)?)?", re.I)
ADDRESS = re.compile(r"(?:0x|\$|->)?([0-9A-F]{4})H?", re.I)
WORD = re.compile(r"(0x|\$)?([0-9A-F]{1,4}?)(H)?", re.I)
GAP = re.compile(r"(?<=\S)(?:\s{2,}|\t)(?=\S)")
DISTANCE = re.compile(r"\*?([+-])([0-9A-F]{1,2})", re.I)
DECIMAL_DISTANCE = re.compile(r"\*?([+-])([0-9]{1,2})d")
# What a listing adds to a jump: where it leads.
LEADS = re.compile(r"(?<=.)->.*")
# The words before the table of a module, in decimal, and words in hexadecimal.
HEAD = re.compile(r"\.?(?:XROM|FCNS)\s+([0-9]{1,2})", re.I)
WORD_ALONE = re.compile(r"(?:\.?HEX\s+|\.)([0-9A-F]{1,3})", re.I)
ORIGIN = re.compile(r"\.?ORG\s+(?:0x|\$)?([4-9A-F])000H?", re.I)
JUMP = re.compile(rf".*\bGO\s*TO\s+({NAME})", re.A | re.I)
PAIR = re.compile(r"(?:\.?(?:CON|HEX):?)?\s*([$.0-9A-Z]+)", re.I)
# Lines of other assemblers that give no word.
WITHOUT_WORDS = re.compile(r"""LEGAL|EJECT|LIST|UNLIST|TITLE\s*["'].*|\.(?:TITLE|EJECT|LIST|UNLIST|HP|JDA|ZENCODE)(?:\s.*)?""",
                           re.I)
END = re.compile(r"\.?END")


def own_names() -> set[str]:
    """Returns the names that this assembler has, from docs/PROCESSOR.md and docs/ASSEMBLER.md."""
    cells = [row[1] for table in tables_of(section_of("PROCESSOR.md", "The instruction words")) for row in table]
    names = {re.sub(" (?:n|hhh)$", "", name) for cell in cells for name in codes_of(cell)}
    banks = {f"ENBANK{number}" for number in range(1, 5)}
    return names | banks | {*LONG, *SHORT, *OF_NUMBERS, *OF_LABELS, *OF_WORDS}


def pairs() -> list[tuple[str, str]]:
    """Returns the names and operands of other dialects, each with its replacement."""
    return pairs_of(tables_of(section_of("ASSEMBLER.md", "Other dialects"))[0])


@dataclass
class Text:
    """A reading of a line: its parts, and a remark on how it was read. `comment` is a comment that was written without `;`. `joined` says
    that two spaces or a tab were inside the operand."""

    label: str
    code: str
    remark: str = ""
    comment: str = ""
    joined: bool = False

    def refers_to(self) -> Optional[str]:
        """Returns the label that the line refers to, or None."""
        return self.code.partition(" :")[2] or None

    def line(self) -> str:
        """Returns the line without its comment."""
        return f"{self.label}: {self.code}".rstrip() if self.label else f" {self.code}"

    def whole(self) -> str:
        """Returns the line in columns, with its comment."""
        line = f"{f'{self.label}:' if self.label else '':<7} {self.code}".rstrip()
        return f"{line} ; {self.comment}" if self.comment else line

    def told(self) -> str:
        """Returns the line for a message, with the remark."""
        comment = f" ; {self.comment}" if self.comment else ""
        return f"{self.line().strip()}{comment}{f' ({self.remark})' if self.remark else ''}"


# The readings of an operand, each with a remark.
Operands = list[tuple[str, str]]


class Names:
    """The names of instructions and the operands of all dialects."""

    def __init__(self) -> None:
        """Reads the names from the documents."""
        self.fields = {field: field for field in FIELDS}
        self.names = {key_of(name): name for name in own_names()}
        self.patterns: list[tuple[re.Pattern[str], str]] = []
        for other, here in pairs():
            if here in FIELDS:
                self.fields[other] = here
            elif here.endswith(" 8"):
                self.patterns.append((re.compile(re.escape(key_of(other)).replace("8", "([0-9]{1,2})")), here[:-1]))
            else:
                self.names[key_of(other)] = here
        # Functions that read the operand of a name.
        self.kinds: dict[str, Callable[[str], Operands]] = {
            **dict.fromkeys(LONG, self.addresses), **dict.fromkeys(SHORT, self.distances),
            **dict.fromkeys(OF_NUMBERS, self.numbers), **dict.fromkeys(OF_LABELS, self.references),
            "CON": self.words, "LDI": self.words}
        self.entries = entries()
        operations = {name for table in tables_of(section_of("PROCESSOR.md", "Arithmetic on a field")) for row in table
                      for name in codes_of(row[1])}
        self.kinds.update(dict.fromkeys(operations, self.of_fields))
        self.labels: set[str] = set()
        self.is_decimal = False

    def codes(self, code: str) -> Iterator[tuple[str, str, bool]]:
        """Yields the readings of an instruction, the likeliest first. The name may be written without its spaces. Each reading has a
        remark, and says whether two spaces or a tab are inside the operand."""
        flat, upper = key_of(code, False), key_of(code)
        for pattern, here in self.patterns:
            found = pattern.fullmatch(upper)
            if found:
                yield f"{here}{int(found[1])}", "", False
        gaps = [len(key_of(code[:gap.start()])) for gap in GAP.finditer(code)]
        ends, at = set(), 0
        for word in code.split():
            at += len(word)
            ends.add(at)
        for apart in (True, False):
            for end in range(len(flat), 0, -1):
                touches = upper[end - 1] == "=" or re.match(r"[-+(\[:0-9]", upper[end:])
                if upper[:end] in self.names and (end in ends if apart else end not in ends and touches):
                    name = self.names[upper[:end]]
                    other = self.no_jump(code) if name.startswith("GOTO ") else ""
                    yield from ((f"{name} {operand}".rstrip(), remark or other, any(end < gap for gap in gaps))
                                for operand, remark in self.kinds.get(name, self.nothing)(flat[end:]))

    def no_jump(self, code: str) -> str:
        """Returns a remark if a GOTO KEY or GOTO ADR may be meant as a jump to a label; otherwise an empty text."""
        found = JUMP.fullmatch(code)
        label = next((name for name in [found[1], *sorted(self.labels)] if name in self.labels and name.upper() == found[1].upper()),
                     None) if found else None
        return f"not a jump to the label {label}; for the jump write JNC :{label}" if label else ""

    # The readings of an operand, each with a remark.

    @staticmethod
    def nothing(operand: str) -> Operands:
        """Returns the readings of an operand that must be missing."""
        return [] if operand else [("", "")]

    def of_fields(self, operand: str) -> Operands:
        """Returns the readings of a field."""
        field = self.fields.get(operand.upper())
        return [(field, "")] if field else []

    @staticmethod
    def numbers(operand: str) -> Operands:
        """Returns the readings of a decimal number or one hexadecimal letter, after which the name of the register may follow."""
        found = NUMBER.fullmatch(operand)
        if not found:
            return []
        number = int(found[1], 16) if found[1].isalpha() else int(found[1])
        if found[2] and (number > 15 or REGISTERS[number].upper() != found[2].upper()) and found[2] != "├":
            return []
        return [(str(number), ""), ("DATA", "the word for 0 reads the selected register")][:1 + (number == 0)]

    def references(self, operand: str) -> Operands:
        """Returns the readings of a reference to a label."""
        operand = LEADS.sub("", operand)
        found = REFERENCE.fullmatch(operand)
        return [(f":{found[1]}", "")] if found else []

    def addresses(self, operand: str) -> Operands:
        """Returns the readings of the target of a long jump: an entry point, an address or a label."""
        operand = LEADS.sub("", operand)
        address = self.entries.get(operand.upper())
        if address and operand not in self.labels:
            return [(address, f"{operand.upper()} of tools/entries.toml")]
        found = ADDRESS.fullmatch(operand)
        if found and operand in self.labels:
            return [(f":{operand}", f"the label {operand}, not the address")]
        return [(found[1], "")] if found else self.references(operand)

    def distances(self, operand: str) -> Operands:
        """Returns the readings of the target of a short jump: a distance or a label."""
        found = DECIMAL_DISTANCE.fullmatch(operand)
        if found:
            return [(f"{found[1]}{int(found[2]):02X}", "read as decimal" if int(found[2]) > 9 else "")]
        found = DISTANCE.fullmatch(operand)
        if not found:
            return self.references(operand)
        number, remark = self.number("", found[2], 2)
        return [(f"{found[1]}{number}", remark)]

    def words(self, operand: str) -> Operands:
        """Returns the readings of a word."""
        found = WORD.fullmatch(operand.removeprefix("."))
        return [self.number(found[1] or found[3], found[2], 3)] if found else []

    def number(self, mark: Optional[str], digits: str, width: int) -> tuple[str, str]:
        """Reads a number in hexadecimal digits. Returns it with a remark: without a prefix or suffix it may be decimal."""
        as_decimal = f"{int(digits):0{width}X}" if digits.isdecimal() else None
        digits = digits.upper().rjust(width, "0")
        if mark or as_decimal is None or as_decimal == digits:
            return digits, ""
        if self.is_decimal:
            return as_decimal, "read as decimal"
        return digits, f"read as hexadecimal; with --decimal it is {as_decimal}"


def fronts(code: str) -> Iterator[tuple[str, str]]:
    """Yields a line as it is, and then its parts before two spaces or a tab, the longest first. The rest may be a comment."""
    yield code, ""
    for gap in reversed(list(GAP.finditer(code))):
        yield code[:gap.start()], code[gap.end():]


def key_of(name: str, in_capitals: bool = True) -> str:
    """Returns a name without spaces, in capitals if `in_capitals` is set."""
    name = re.sub(r"\s", "", name)
    return name.upper() if in_capitals else name


class Dialect:
    """The lines of a source for this assembler, the message for each changed line by its number, and the messages for the whole source."""

    def __init__(self, lines: list[bytes], is_decimal: bool = False) -> None:
        """Translates the lines that the assembler cannot read."""
        self.lines = list(lines)
        self.told: list[tuple[int, str]] = []
        self.notes: list[str] = []
        self.comments: list[int] = []
        # The page that ORG names.
        self.origin: Optional[str] = None
        # For each line with the number of an LDI, the line of the LDI, counted from 0.
        self.numbers: dict[int, int] = {}
        is_read = refused(block(b"asm 8", lines))[0] == 0
        if is_read and not is_decimal:
            return
        texts, has_columns = without_columns([text.decode("utf-8", "surrogateescape") for text in lines])
        self.texts, renamed = with_letters(texts)
        if has_columns or renamed:
            self.lines = lines = [text.encode("utf-8", "surrogateescape") for text in self.texts]
        if has_columns:
            self.notes.append("a listing: the addresses and words before its lines are removed")
        if renamed:
            self.notes.append("names that begin with # or * have new names: "
                              f"{', '.join(f'{old} is {new}' for old, new in renamed.items())}")
        self.codes = [begin(CODE, text)[0].rstrip() if not text.startswith("#") else "" for text in self.texts]
        self.names = Names()
        self.names.labels, self.names.is_decimal = self.labels(), is_decimal
        own = self.unread(set(self.codes))
        found = {at: list(self.spellings(at)) for at, code in enumerate(self.codes) if code in own}
        found.update(self.pairs(found))
        wrong = self.unread({text.line() for texts in found.values() for text in texts if text})
        for at in sorted(found):
            readings = [text for text in found[at] if text is not None and text.line() not in wrong]
            if readings or None in found[at]:
                self.change(at, self.with_other(*readings) if readings else None)
        if self.comments:
            self.notes.append(f"lines that begin with * or // are comments: {len(self.comments)}")
        self.read_others(own, [at for at in found if self.lines[at] != lines[at]])

    @staticmethod
    def unread(codes: Iterable[str]) -> set[str]:
        """Returns the lines that the assembler cannot read by themselves."""
        asked = sorted(code for code in codes if code.strip() not in ("", "end"))
        _, found = refused(b"".join(block(b"asm 3", [code.encode("utf-8", "surrogateescape")]) for code in asked))
        return {asked[first // 3] for first, _, refusal in found if refusal.startswith(OF_THE_LINE)}

    def labels(self) -> set[str]:
        """Returns the names before a colon or in the first column."""
        found = [LABEL.fullmatch(code) or IN_FRONT.fullmatch(code) for code in self.codes]
        return {label[1] for label in found if label}

    def is_referred_to(self, name: str) -> bool:
        """Returns whether a line ends with a name, as a jump to it does. A comment may follow the name."""
        last = rf".*[\s:(\[]{name}[)\]]?"
        return any(re.fullmatch(last, front) for code in self.codes for front, _ in fronts(code))

    def spellings(self, at: int) -> Sequence[Optional[Text]]:
        """Returns the readings of a line, the joined ones last; None is the reading of a line that gives no word."""
        code = "".join(SIGNS.get(letter, letter) for letter in self.codes[at])
        if code.lstrip().startswith(("*", "//")):
            self.comments.append(at)
            return [None]
        origin = ORIGIN.fullmatch(code.strip())
        if origin and not any(one.strip() for one in self.codes[:at]):
            self.origin = origin[1].upper()
            return [None]
        if WITHOUT_WORDS.fullmatch(code.strip()) or END.fullmatch(code.strip()) and self.is_last(at):
            return [None]
        found = [replace(text, comment=comment) for front, comment in fronts(code) if self.may_be_comment(front, comment)
                 for text in self.texts_of(front)]
        alone = IN_FRONT.fullmatch(code)
        if not found and alone and not alone[2] and self.is_referred_to(alone[1]):
            found.append(Text(alone[1], ""))
        found.sort(key=lambda text: text.joined)
        return found

    def with_other(self, text: Text, *others: Text) -> Text:
        """Returns a reading with a remark about the other one, in which its comment is part of the operand."""
        labels = {*self.names.labels, None}
        joined = next((other for other in others if other.joined and other.code != text.code and other.refers_to() in labels), None)
        if text.joined or not joined:
            return text
        other = f"what follows the spaces is a comment; if it is part of the operand, write {joined.code}"
        return replace(text, remark="; ".join(filter(None, [text.remark, other])))

    def texts_of(self, code: str) -> Iterator[Text]:
        """Yields the readings of a line without a comment: those with an instruction or a directive."""
        labelled, in_front = LABEL.fullmatch(code), IN_FRONT.fullmatch(code)
        parts = [labelled.groups()] if labelled else [("", code.strip())]
        if labelled and labelled[1].upper() == "CON":
            parts.append(("", f"CON {labelled[2]}"))
        if in_front and not labelled and in_front[2] and self.may_be_label(in_front[1]):
            parts.append(in_front.groups())
        yield from (Text(label, rest, self.names.no_jump(rest)) for label, rest in parts if label and rest)
        yield from (Text(label, text, remark, "", joined) for label, rest in parts for text, remark, joined in self.codes_of(rest))

    def may_be_label(self, name: str) -> bool:
        """Returns whether a name without a colon may be a label. If it is an instruction too, a line must refer to it."""
        return next(self.codes_of(name), None) is None or self.is_referred_to(name)

    def may_be_comment(self, front: str, text: str) -> bool:
        """Returns whether a text may be a comment: it is not an instruction, and its first word does not complete another name."""
        words = text.split()
        texts = self.texts_of(f"{front}  {words[0]}") if words[1:] else []
        longer = {one.code for one in texts if not one.joined and not GAP.search(one.code)}
        return next(self.codes_of(text), None) is None and longer <= {one.code for one in self.texts_of(front)}

    def codes_of(self, code: str) -> Iterator[tuple[str, str, bool]]:
        """Yields the readings of an instruction or directive."""
        named = re.fullmatch(r'\.?NAME\s*(".*")', code, re.I)
        head, alone = HEAD.fullmatch(code), WORD_ALONE.fullmatch(code)
        if named:
            yield f"NAME {named[1]}", "", False
        elif head:
            yield f"CON {int(head[1]):03X}", "read as decimal" if int(head[1]) > 9 else "", False
        elif alone:
            number, remark = self.names.number("" if code.startswith(".") and not code.upper().startswith(".HEX") else "0x", alone[1], 3)
            yield f"CON {number}", remark, False
        elif '"' not in code:
            yield from self.names.codes(code.lstrip(".") if re.match(r"\.CON\b", code, re.I) else code)

    def is_last(self, at: int) -> bool:
        """Returns whether no line after this one has code."""
        return not any(code.strip() for code in self.codes[at + 1:])

    def pairs(self, found: Iterable[int]) -> dict[int, list[Optional[Text]]]:
        """Returns the readings of each LDI whose number is in the next line, and of that line."""
        changed: dict[int, list[Optional[Text]]] = {}
        for at in found:
            loads = self.load_of(self.codes[at])
            behind = next((one for one in range(at + 1, len(self.codes)) if self.codes[one].strip()), None)
            number = next(filter(None, (PAIR.fullmatch(front.strip()) for front, _ in fronts(self.codes[behind]))), None) \
                if loads and behind is not None else None
            word = self.names.words(number[1]) if number else []
            if loads and behind is not None and word and int(word[0][0], 16) <= GREATEST_WORD:
                changed[at] = [replace(loads, code=f"LDI {word[0][0]}", remark=word[0][1])]
                changed[behind] = [None]
                self.numbers[behind] = at
        return changed

    def load_of(self, code: str) -> Optional[Text]:
        """Returns the reading of a line that is LDI without its number; None for any other line."""
        for front, comment in fronts(code):
            if WORD.fullmatch((comment.split() or [""])[0]) or not self.may_be_comment(front, comment):
                continue
            labelled = LABEL.fullmatch(front) or IN_FRONT.fullmatch(front)
            for label, rest in [("", front), *([labelled.groups()] if labelled else [])]:
                if key_of(rest) in ("LDI", "LDIS&X"):
                    return Text(label, rest, "", comment)
        return None

    def change(self, at: int, text: Optional[Text]) -> None:
        """Replaces a line by a reading, and adds a message."""
        old = self.texts[at][len(self.codes[at]):].lstrip()
        code = self.codes[at].strip()
        if text is None:
            new, told = f"; {self.texts[at].strip()}", "(removed)"
            told += f" (its number is in line {self.numbers[at] + 1})" if at in self.numbers else ""
        else:
            new, told = text.whole() + (f" {old}" if old else ""), text.told()
        self.lines[at] = new.encode("utf-8", "surrogateescape")[:LONGEST_LINE]
        if at not in self.comments:
            self.told.append((at + 1, f"{shown(code)} -> {shown(told)}"))

    def read_others(self, own: set[str], changed: list[int]) -> None:
        """Looks at the lines that the assembler can read as they are. In another dialect their numbers may be decimal, and their names
        may be labels."""
        kept = []
        for at, code in enumerate(self.codes):
            if code in own or at in changed:
                continue
            remark = self.names.no_jump(code) if changed else ""
            if remark:
                self.told.append((at + 1, f"{code.strip()} ({remark})"))
            found = re.fullmatch(rf"((?:\s*{NAME}:)?\s*)((?:LDI|CON|JC|JNC)\s+[+-]?)([0-9]+)", code, re.A)
            if not found:
                continue
            number, remark = self.names.number("", found[3], len(found[3]))
            if remark and self.names.is_decimal:
                label = found[1].strip().rstrip(":")
                self.change(at, Text(label, " ".join(f"{found[2]}{number}".split()), remark))
            elif remark:
                kept.append((at + 1, code.strip()))
        self.told.sort(key=lambda told: told[0])
        if kept and changed:
            self.notes.append("numbers after LDI, CON and short jumps are read as hexadecimal, for example in line "
                              f"{kept[0][0]}, {kept[0][1]}"
                              f"{f', and {len(kept) - 1} more' if kept[1:] else ''}; if they are decimal, use --decimal")


def as_own(lines: list[bytes]) -> list[Optional[str]]:
    """Returns the lines of another dialect as this assembler reads them: a comment if a line gives no word, and None if a line is not
    changed."""
    found = Dialect(lines).lines
    return [None if own == line else " ".join(own.decode(errors="replace").split()) for own, line in zip(found, lines)]
