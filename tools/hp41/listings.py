"""Listings of programs: translates their lines to those of the bench, and finds out why a line cannot be read."""
import re
from bisect import bisect_left
from typing import Iterable, Iterator, Optional

from . import causes
from .causes import Cause
from .comments import heads_in, is_whole, kept, split
from .decks import LONGEST_LINE, Failure, block, ended, refused, shown, words_of
from .documents import codes_of, section_of, tables_of
from .doubts import COMMENT, LINE_NUMBER, SIGMA, Doubt, Doubtful, of_line, of_listed
from .functions import Functions
from .programs import fates
from .spellings import DOCUMENT, Readings, Speller, read_tables, replaced

# A line number, and the rest of the line.
NUMBERED = re.compile(r"([0-9]{1,4})(?:[.:)]?\s+|(?=[*♦◆▸▶►•●>]\s*LBL\b))(\S.*)", re.I)
QUOTED = re.compile(r"""["'“‘ᵀ]""")
# One line in so many may have a wrong line number or none; the numbers are removed all the same.
FEW = 8

# Parts of a line that cannot be read.
IN_QUOTES = re.compile(r'(>?|[A-Z]+ )"(.*)"')
CHARACTER = re.compile(r"\\[0-9A-F]{2}|.")
COUNTED = re.compile(r"([0-9]{1,4})([^0-9\s].*)")
TOUCHING = re.compile(r"([^\s0-9]+)([0-9]{1,2})")
WITH_NUMBER = re.compile(r"(.+ )([0-9]{2,3})")

# The possible names of functions, and of labels in a proposal.
FUNCTION = re.compile(r"[A-Z][A-Z0-9<>=#?+*/^-]{0,6}")
CALLED = re.compile(r"[A-Z][A-Z0-9]{0,6}")

ENDED = re.compile(r"\.?END\.?(?:\s.*)?", re.I)


def readable(texts: Iterable[str]) -> set[str]:
    """Returns those of the texts that the bench reads as program lines."""
    asked = sorted({text for text in texts if may_be_line(text)})
    deck = b"".join(b"reset\n" + block(b"program", [text.encode()]) for text in asked)
    status, found = refused(deck)
    if status > 1:
        raise Failure(ended(status, "when it was asked for the lines of the listing"))
    return set(asked) - {asked[first // 4] for first, _, _ in found}


def may_be_line(text: str) -> bool:
    """Returns whether a text can be a line of its own in a block."""
    data = text.encode()
    return (len(data) <= LONGEST_LINE and "\n" not in text and not text.startswith("#")
            and words_of(data) not in ([], [b"end"]))


def is_comment(line: str) -> bool:
    """Returns whether a line is empty or a comment of a block."""
    return line == "" or line.startswith("#")


# The matches of lines with their numbers, by the places of the lines.
Numbers = dict[int, re.Match[str]]


class Listing:
    """The lines of a listing, which may have line numbers: their texts for the bench, messages for lines and for the whole listing, the
    doubts about it, and the lines that cannot be read."""

    def __init__(self, lines: list[str], has_numbers: bool = True, functions: Optional[Functions] = None) -> None:
        """Reads the lines of a listing. Their numbers are removed if `has_numbers` is set."""
        self.notes: list[str] = []
        self.told: list[tuple[int, str]] = []
        self.bad: list[tuple[int, str, str]] = []
        self.texts: list[str] = []
        self.doubts: list[Doubt] = []
        # The lines whose numbers are removed, and those whose numbers are kept, counted from 0. And the number of lines that cannot be
        # read.
        self.off: set[int] = set()
        self.on: set[int] = set()
        self.unread = 0
        # The comments that are lines of their own, and those after a program line, with their signs, by their lines, counted from 1.
        self.comments: dict[int, str] = {}
        self.beside: dict[int, str] = {}
        self.functions, self.raw = functions, lines
        self.tables = read_tables()
        stripped = self.without_heads([line.strip() for line in lines])
        self.lines = self.without_comments(self.without_numbers(stripped) if has_numbers else stripped)
        self.read()

    def doubt(self, name: str, number: int, text: str, part: str = "") -> None:
        """Adds a doubt about a line. Its column is that of a part of the line, or of the line's first character."""
        raw = self.raw[number - 1]
        at = raw.find(part) if part else -1
        self.doubts.append(Doubt(name, number, (at if at >= 0 else len(raw) - len(raw.lstrip())) + 1, text))

    def without_heads(self, lines: list[str]) -> list[str]:
        """Returns the lines without comments that are lines of their own, and without heads: each becomes a comment."""
        heads = heads_in(lines, lambda texts: self.lines_among(texts))
        for at, line in enumerate(lines):
            if at in heads or is_whole(line) and not line.startswith("#"):
                self.comments[at + 1] = f"{'# ' if at in heads else ''}{line}"
        if heads:
            of = f"line {heads[0] + 1}" if not heads[1:] else f"lines {heads[0] + 1} to {heads[-1] + 1}"
            self.notes.append(f"{of}, above the program, {'are kept as comments' if heads[1:] else 'is kept as a comment'}")
        return ["" if at + 1 in self.comments else line for at, line in enumerate(lines)]

    def lines_among(self, texts: list[str]) -> set[str]:
        """Returns those of some texts that are program lines in some spelling."""
        speller = Speller(self.tables, texts, self.functions)
        tried = {text: [found for found, _ in speller.spellings(text) or []] + [text] for text in texts}
        good = readable([found for some in tried.values() for found in some])
        return {text for text, some in tried.items() if good.intersection(some)}

    def without_comments(self, lines: list[str]) -> list[str]:
        """Returns the lines without the comments after program lines, which are kept."""
        found = []
        for number, line in enumerate(lines, 1):
            code, comment = split(line, replaced(line, self.tables.everywhere))
            if not comment and number - 1 in self.off and line.startswith((";", "//")):
                self.comments[number], code = line, ""
            elif comment and kept(comment, True) is None:
                self.doubt(COMMENT, number, f"the comment has {len(comment.encode())} bytes, which do not fit into a line of a deck: it is "
                           "dropped", comment)
            elif comment:
                self.beside[number] = comment
            found.append(code)
        return found

    def without_numbers(self, lines: list[str]) -> list[str]:
        """Returns the lines without line numbers, if every line has one. A few exceptions are allowed and reported."""
        places = [at for at, line in enumerate(lines) if not is_comment(line)]
        found = numbers_of(lines, places)
        numbered = [(int(found[at][1]), at) for at in found]
        if not places or 2 * len(numbered) <= len(places):
            return lines
        follows = [False] + [ENDED.fullmatch(found[at][2] if at in found else lines[at]) is not None for at in places[:-1]]
        begins = {at for at, ended in zip(places, follows) if ended and at in found and int(found[at][1]) <= 1}
        anew = begin_anew(numbered, begins)
        begins |= anew
        rising = ascending(numbered, begins)
        wrong = [at for at in places if at not in rising]
        if len(wrong) * FEW > len(places):
            missing = next((at for at in places if at not in found), None)
            self.note_kept(lines, missing, [at for (last, _), (number, at) in zip(numbered, numbered[1:])
                                            if at not in begins and number <= last])
            self.on = set(found)
            return lines
        speller = Speller(self.tables, [])
        if all(speller.number(speller.plain(lines[at])) for at in places):
            self.doubt(LINE_NUMBER, places[0] + 1, "every line is a number, so no line numbers are removed")
            return lines
        but = f"; {len(wrong)} line{' has' if len(wrong) == 1 else 's have'} no number or a wrong one" if wrong else ""
        last = max((found[at][1] for at in rising), key=int)
        self.notes.append(f"the line numbers {found[numbered[0][1]][1]} to {last} are removed{but}")
        self.doubt_numbers([(number, at) for number, at in numbered if at in rising], wrong, begins, found)
        for at in sorted(anew):
            self.doubt(LINE_NUMBER, at + 1, f"the line numbers start again at line {at + 1}: is an END missing before it?")
        for at in wrong:
            self.doubt(LINE_NUMBER, at + 1, f"{shown(lines[at])} (its line number does not ascend; it is removed too)" if at in found else
                       f"{shown(lines[at])} (it has no line number; the line is kept as it is)")
        self.off = set(found)
        return [found[at][2] if at in self.off else line for at, line in enumerate(lines)]

    def note_kept(self, lines: list[str], missing: Optional[int], falls: list[int]) -> None:
        """Notes why the line numbers are not removed: the first line without one, or the first line whose number does not ascend."""
        why = (f"line {missing + 1} has no line number" if missing is not None else
               f"the number of line {falls[0] + 1} does not ascend")
        self.notes.append(f"{why}, so the line numbers are not removed: "
                          f"{shown(lines[falls[0] if missing is None else missing])}")

    def doubt_numbers(self, numbers: list[tuple[int, int]], wrong: list[int], begins: set[int], found: Numbers) -> None:
        """Adds a doubt about the first gap in the line numbers, each with its place. There is none at a line with a wrong number or none,
        at an END, and in a list of positions in memory, which begins with 0000."""
        if len(found[numbers[0][1]][1]) == 4 and numbers[0][0] == 0:
            return
        before = [(0, -1), *numbers]
        gaps = [(last, number, at) for (last, above), (number, at) in zip(before, numbers)
                if at not in begins and number > last + 1 + sum(above < one < at for one in wrong)]
        if gaps:
            last, number, at = gaps[0]
            more = f", and there are {len(gaps)} such gaps" if gaps[1:] else ""
            follows = f"{number} follows {last}" if last else f"the first one is {number}"
            self.doubt(LINE_NUMBER, at + 1, f"a line number is missing: {follows}{more}; are lines missing before this one?")

    def is_comment(self, number: int, line: str) -> bool:
        """Returns whether a line is a comment of the block. After a line number, `#` does not begin a comment."""
        return is_comment(line) and number - 1 not in self.off

    def read(self) -> None:
        """Reads the lines: first those that the bench reads as they are, then the spellings of the others."""
        speller = Speller(self.tables, self.lines, self.functions)
        good = readable(self.lines)
        others = {line: speller.spellings(line) for number, line in enumerate(self.lines, 1)
                  if line not in good and number not in self.comments and not self.is_comment(number, line)}
        tried = [text for found in others.values() for text, _ in found or []]
        good |= readable(tried + [function for function in map(speller.function_called, tried) if function])
        calls = []
        for number, line in enumerate(self.lines, 1):
            if number in self.comments or self.is_comment(number, line):
                self.texts.append(self.comment_for(number, line))
            elif line in others:
                self.texts.append(self.spelled(number, line, speller, others[line], good))
                function = speller.function_called(self.texts[-1])
                if function and not QUOTED.search(line):
                    calls.append((number, self.texts[-1], function if function in good else None))
            else:
                self.texts.append(line)
                if speller.remark_on(line):
                    self.told.append((number, f"{line} ({speller.remark_on(line)})"))
            self.doubt_line(number, line, speller)
        self.tell_calls(speller, calls)
        self.told.sort(key=lambda told: told[0])
        self.give_reasons(speller, others)

    def is_foreign(self) -> bool:
        """Returns whether less than half of the lines can be read: the text is probably a letter or a manual."""
        lines = [number for number, line in enumerate(self.lines, 1) if line and not self.is_comment(number, line)]
        return 2 * self.unread > len(lines)

    def comment_for(self, number: int, line: str) -> str:
        """Returns the line of a block for a comment, or for an empty line."""
        text = kept(self.comments.get(number, line)) if self.comments.get(number, line) else line
        if text is None:
            size = len(self.comments.get(number, line).encode())
            self.doubt(COMMENT, number, f"the comment has {size} bytes, which do not fit into a line of a deck: it is dropped")
        return text or ""

    def doubt_line(self, number: int, line: str, speller: Speller) -> None:
        """Adds the doubts about the line that was read last."""
        text = self.texts[-1]
        if not text or text.startswith("#"):
            return
        for name, why in of_line(text, speller.comma_is_point and "," not in line):
            self.doubt(name, number, f"{text} ({why})", line)
        for name, part, why in of_listed(line, text):
            self.doubt(name, number, f"{line if name == SIGMA else text} ({why})", part)

    def tell_calls(self, speller: Speller, calls: list[tuple[int, str, Optional[str]]]) -> None:
        """Adds messages about calls by a name without quotes, if a function has this name. Each call has the number of its line, its
        text, and the line of the calculator's function."""
        asked = [text for _, text, function in calls if function]
        nowhere = fates(asked, b"")[1] if asked else set()
        for number, text, function in calls:
            called = speller.function_called(text)
            line = function or next((line for line, _ in (speller.named(called) if called else [])), None)
            if function and text not in nowhere:
                self.told.append((number, f"{text} calls a label of that name if memory has one, otherwise the function"))
            elif line and not function and speller.functions and f'XEQ "{speller.functions.names[line]}"' == text:
                self.told.append((number, f"{text} calls a label of that name if memory has one, otherwise the function, if its "
                                          f"module is plugged; to call the function only, write {line}"))
            elif line:
                self.told.append((number, f"{text} calls a label; for the function write {line}"))

    def spelled(self, number: int, line: str, speller: Speller, spellings: Optional[Readings], good: set[str]) -> str:
        """Returns the first spelling of a line that the bench reads, and adds messages."""
        if spellings is None:
            self.told.append((number, f"{shown(line)} -> (removed)"))
            return ""
        reading = next((found for found in spellings if found[0] in good), None)
        if reading is None:
            self.bad.append((number, line, ""))
            return ""
        text, remark = reading
        if isinstance(remark, Doubtful):
            self.doubt(remark.name, number, f"{shown(line)} -> {text} ({remark})", line)
            return text
        remark = remark or speller.remark_on(text)
        self.told.append((number, f"{shown(line)} -> {text}{f' ({remark})' if remark else ''}"))
        return text

    def give_reasons(self, speller: Speller, others: dict[str, Optional[Readings]]) -> None:
        """Adds the reason to each line that cannot be read. Lines whose only problem is their line number are reported once."""
        self.unread = len(self.bad)
        kept = [(number, line) for number, line, _ in self.bad if number - 1 in self.on]
        found = {line: list(self.causes(number, line, speller, others[line] or [])) for number, line, _ in self.bad
                 if (number, line) not in kept[1:]}
        good = readable([text for some in found.values() for texts, _ in some for text in texts])
        reasons = {line: next((why for texts, why in some if good.issuperset(texts)), "") for line, some in found.items()}
        if kept:
            more = f"; the same holds for {len(kept) - 1} more line{'s' if kept[2:] else ''}" if kept[1:] else ""
            reasons[kept[0][1]] = f"its line number was not removed{more}"
        self.bad = [(number, line, reasons[line]) for number, line, _ in self.bad if (number, line) not in kept[1:]]

    def causes(self, number: int, line: str, speller: Speller, spellings: Readings) -> Iterator[Cause]:
        """Yields reasons why a line cannot be read, the likeliest first. Each has texts that the bench reads if this is the reason; none if
        it is certain."""
        if line.startswith("#"):
            yield (), "# does not begin a comment after a line number"
        text = speller.plain(line)
        yield from self.of_quotes(text, speller, spellings)
        yield from causes.of_texts(text, speller)
        found = re.match(r"GTO ?\.|[A-Z]+", text.upper())
        command = re.sub(r" ?\.", " .", found[0]) if found else ""
        if command in commands():
            yield (), f"a command of the calculator, not a program line{commands()[command]}"
        if not line.startswith("0") or "x" in line.lower():
            yield from causes.of_numbers(text, speller)
        counted_line = COUNTED.fullmatch(line)
        if counted_line:
            apart = f"write a space after the line number: {shown(f'{counted_line[1]} {counted_line[2]}')}"
            yield from (((found,), apart) for found, _ in speller.spellings(counted_line[2]) or [])
        yield from causes.causes(text, speller)
        touching = TOUCHING.fullmatch(text)
        if touching:
            apart = f"{speller.tables.name(touching[1])} {int(touching[2]):02}"
            yield (apart,), f"write a space before the operand: {apart}"
        yield from self.of_words(text, speller, spellings)

    @staticmethod
    def of_quotes(text: str, speller: Speller, spellings: Readings) -> Iterator[Cause]:
        """Yields reasons that depend on the quotes of a line."""
        for quoted in filter(None, (IN_QUOTES.fullmatch(found) for found, _ in spellings)):
            characters = CHARACTER.findall(quoted[2])
            for most in (15, 14):
                if len(characters) > most:
                    cut = f'{quoted[1]}"{"".join(characters[:most])}"'
                    yield (cut,), f"found {len(characters)} characters, expected at most {most}"
            yield from (((f'{quoted[1]}"{quoted[2].replace(sign, "")}"',), f"inside quotes, write {sign} as {code}")
                        for sign, code in (('"', "\\22"), ("\\", "\\5C")) if sign in quoted[2])
            if not quoted[2].isascii():
                kept_signs = re.sub(r"[^ -~]", "", quoted[2])
                signs = " ".join(dict.fromkeys(re.findall(r"[^ -~]", quoted[2])))
                yield (f'{quoted[1]}"{kept_signs}"',), (f"{signs} is in none of the tables of docs/PROGRAMS.md; write a character as \\ "
                                                        "and two hexadecimal digits")
        if text.count('"') % 2:
            for whole in (f'{text}"', re.sub(r"\A((?:LBL|GTO|XEQ) )?", r'\1"', text, flags=re.I)):
                yield from (((found,), "a quote is missing") for found, _ in speller.spellings(whole) or [])

    def of_words(self, text: str, speller: Speller, spellings: Readings) -> Iterator[Cause]:
        """Yields reasons that depend on the words of a line."""
        steps = text.split()
        if len(steps) > 1:
            yield (" ".join(steps).replace(" ", ""),), "a number cannot contain spaces"
        yield from (((found[:16],), f"the number has {len(found)} characters, expected at most 16")
                    for found, _ in speller.number(text) if len(found) > 16)
        name = speller.tables.name(text)
        yield (f"{name} 00",), f"the operand is missing: write for example {name} 05"
        for found, _ in spellings:
            operated = WITH_NUMBER.fullmatch(found)
            if operated:
                yield (f"{operated[1]}00",), f"{operated[2]} is not a valid operand here: expected 00 to 99"
        yield from self.parts(text, speller)
        several = speller.functions.lines(name) if speller.functions else []
        if several:
            yield (), f"several modules have a function of this name: write {' or '.join(several)}"
        if FUNCTION.fullmatch(speller.tables.name(steps[0])) and (not steps[1:] or speller.function(text)):
            called = f', and call a label by XEQ "{name}"' if CALLED.fullmatch(name) and not steps[1:] else ""
            yield (), ("not a function of the calculator or of a known module; write a function of another module by its "
                       f"numbers, for example XROM 05,01{called}")
        odd = " ".join(dict.fromkeys(re.findall(r"[^ -~]", text)))
        yield (), (f"{odd} is in no name of a function" if odd and '"' not in text else
                   "expected a function, with an operand if it takes one, a number, or a text in quotes")

    @staticmethod
    def parts(text: str, speller: Speller) -> Iterator[Cause]:
        """Yields reasons that depend on the first of several words."""
        first, *behind = text.split(maxsplit=1)
        if not behind:
            return
        name = speller.tables.name(first)
        is_label = name in ("LBL", "GTO", "XEQ")
        wanted = f'a label: two digits, one letter, or a name in quotes, for example {name} "SUB"' if is_label else "two digits"
        why = f"{behind[0]} is not a valid operand here: expected {wanted}"
        if name != "LBL":
            yield (f"{name} 00", f"{name} IND 00"), f"{why}, or IND and a register"
        yield (f"{name} 00",), why
        yield from (((found,), f"{first} takes no operand") for found, _ in speller.spellings(first) or [])


def numbers_of(lines: list[str], places: list[int]) -> Numbers:
    """Returns the matches of the lines at some places that have line numbers, by their places."""
    found = {at: match for at in places for match in [NUMBERED.fullmatch(lines[at])] if match}
    if len(found) < len(places):
        return dict(zip(places, counted([lines[at] for at in places]))) or found
    return found


def counted(lines: list[str]) -> list[re.Match[str]]:
    """Reads line numbers without spaces after them: they count from 01, 001 or 0001, and may start again. Returns a match for each line,
    with its number and the rest; an empty list if a line does not fit."""
    for width in (2, 3, 4):
        found: list[re.Match[str]] = []
        for line in lines:
            numbers = [1] if not found or ENDED.fullmatch(found[-1][2]) else [int(found[-1][1]) + 1, 1]
            matches = [match for number in numbers for match in [re.fullmatch(rf"({number:0{width}})\s*(\S.*)", line)] if match]
            if not matches:
                break
            found.append(matches[0])
        else:
            return found
    return []


def begin_anew(numbers: list[tuple[int, int]], begins: set[int]) -> set[int]:
    """Returns the places where line numbers start again at 0 or 1 and continue from there, except after an END. A single wrong number is
    not followed by the next one."""
    return {at for (last, _), (number, at), (behind, _) in zip(numbers, numbers[1:], numbers[2:])
            if at not in begins and number <= min(last, 1) and number < behind <= max(last, number + 1)}


def ascending(numbers: list[tuple[int, int]], begins: set[int]) -> set[int]:
    """Returns the places of a longest sequence of ascending numbers between two starts."""
    runs: list[list[tuple[int, int]]] = []
    found = set()
    for number, at in numbers:
        if at in begins or not runs:
            runs.append([])
        runs[-1].append((number, at))
    for run in runs:
        lasts: list[int] = []
        ends: list[int] = []
        before: dict[int, Optional[int]] = {}
        for number, at in run:
            place = bisect_left(lasts, number)
            lasts[place:place + 1], ends[place:place + 1] = [number], [at]
            before[at] = ends[place - 1] if place else None
        now: Optional[int] = ends[-1]
        while now is not None:
            found.add(now)
            now = before[now]
    return found


def commands() -> dict[str, str]:
    """Returns the commands that are not program lines, each with its replacement, from the table of the document."""
    return {name: f"; {here}" if here else "" for names, here in tables_of(section_of(DOCUMENT, "Commands"))[0]
            for name in codes_of(names)}
