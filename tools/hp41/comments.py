"""Comments and heads of listings: finds them in a listing, keeps them in the blocks of a deck, and finds them there again.

In a `program` block, a comment is a line that begins with `#`. A comment with another sign keeps it after `# `, for example `# ; text`.
A comment that follows a program line in its listing is on the next line, after `#^ `."""
import re
from dataclasses import dataclass, field
from typing import Callable, Dict, Iterable, Iterator, List, Optional, Sequence, Set, Tuple

from .decks import LONGEST_LINE, items_of, lines_of, text_of, words_of

# How a line of a block begins that is a comment, a comment with another sign, and one that belongs to the line above it.
OWN, BESIDE = "# ", "#^ "

# A comment in a line, after its code: `#` in X#Y? begins none, even with spaces around it.
SIGN = re.compile(r'"|;|(?<!\S)//|(?<=\s)#(?!\s*(?:[Y0N]\S*)?\s*\Z)', re.I)
WHOLE = re.compile(r"(?:#|;|//).*")

# Lines above a program that say what it is, and lines under a title.
FUNCTIONS = r"LBL|GTO|XEQ|RCL|STO|ST|FIX|SCI|ENG|SF|CF|FS|FC|ISG|DSE|VIEW|TONE|ASTO|ARCL|XROM|PRP|SIZE|STEP|LINE|END"
NAMED = re.compile(rf"(?!(?:{FUNCTIONS})\b)[A-Za-z][A-Za-z .&/()'-]{{0,30}}:(?:\s+\S.*)?", re.I)
WITHOUT_COLON = re.compile(r"(?:author|by|written|program|title|registers?|regs|flags|copyright|version|description|usage|hp-?\s?41\S*)"
                           r"\s+\S.*", re.I)
RULE = re.compile(r"[-=*_~]{3,}")
BRACED = re.compile(r"(?:0+\s+)?\{.*\}")
ENDED = re.compile(r"(?:[0-9]{1,4}[.:)]?\s+)?\.?END\.?(?:\s.*)?", re.I)
FIRST_NUMBERED = re.compile(r"0*1(?:[.:)]?\s+|(?=[*♦◆▸▶►•●>]\s*LBL\b))\S.*", re.I)
ANY_NUMBERED = re.compile(r"[0-9]{1,4}(?:[.:)]?\s+|(?=[*♦◆▸▶►•●>]\s*LBL\b))\S.*", re.I)
# One line in so many may have no number, as in listings.py.
FEW = 8


def is_whole(line: str) -> bool:
    """Returns whether a line of a listing is a comment."""
    return WHOLE.fullmatch(line) is not None


def split(line: str, plain: str) -> Tuple[str, str]:
    """Returns the code of a line and the comment after it, with its sign. `plain` is the line with the calculator's quotes."""
    quoted = False
    for found in SIGN.finditer(plain):
        if found[0] == '"':
            quoted = not quoted
        elif not quoted and line[:found.start()].strip():
            return line[:found.start()].rstrip(), line[found.start():].strip()
    return line, ""


def heads_in(lines: Sequence[str], is_line: Callable[[List[str]], Set[str]]) -> List[int]:
    """Returns the places of the lines above programs that say what they are: their title, author, registers. `is_line` returns which of
    some texts are program lines."""
    found: List[int] = []
    is_top = True
    for at, line in enumerate(lines):
        if not line or is_whole(line) or BRACED.fullmatch(line):
            continue
        if is_top and (NAMED.fullmatch(line) or WITHOUT_COLON.fullmatch(line) or found and RULE.fullmatch(line)):
            found.append(at)
        else:
            is_top = ENDED.fullmatch(line) is not None
    good = is_line([lines[at] for at in found]) if found else set()
    found = [at for at in found if lines[at] not in good]
    return sorted({*found, *above_numbers(lines, set(found), is_line)})


def above_numbers(lines: Sequence[str], heads: Set[int], is_line: Callable[[List[str]], Set[str]]) -> List[int]:
    """Returns the places of lines above the line number 1 of a listing, if they are no program lines and nearly all lines after them have
    numbers."""
    places = [at for at, line in enumerate(lines) if line and not is_whole(line) and not BRACED.fullmatch(line) and at not in heads]
    first = next((number for number, at in enumerate(places) if FIRST_NUMBERED.fullmatch(lines[at])), 0)
    below = places[first:]
    numbered = sum(ANY_NUMBERED.fullmatch(lines[at]) is not None for at in below)
    above = places[:first]
    if not above or FEW * (len(below) - numbered) > len(below) or any(ANY_NUMBERED.fullmatch(lines[at]) for at in above):
        return []
    good = is_line([lines[at] for at in above])
    return [at for at in above if lines[at] not in good]


def kept(comment: str, is_beside: bool = False) -> Optional[str]:
    """Returns the line of a block that keeps a comment of a listing; None if it is too long for a deck."""
    text = comment if comment.startswith("#") and not is_beside else f"{BESIDE if is_beside else OWN}{comment}"
    return text if len(text.encode()) <= LONGEST_LINE else None


# Decks.

@dataclass
class Commented:
    """A program of a deck: its lines, the comments before each line by the line's place, and the comments beside lines. The place after
    the last line has the comments at the end."""

    texts: List[str] = field(default_factory=list)
    above: Dict[int, List[str]] = field(default_factory=dict)
    beside: Dict[int, str] = field(default_factory=dict)

    def count(self) -> int:
        """Returns how many comments the program has."""
        return sum(map(len, self.above.values())) + len(self.beside)


def in_deck(deck: bytes) -> List[Commented]:
    """Returns the programs in the `program` blocks of a deck, with their comments."""
    lines, found = lines_of(deck), []
    for first, last in items_of(lines):
        if words_of(lines[first]) == [b"program"]:
            found += in_block([text_of(line).decode("utf-8", "replace") for line in lines[first + 1:last]])
    return found


def in_block(lines: Iterable[str]) -> List[Commented]:
    """Returns the programs of a block. Comments after the last END belong to the last program."""
    found = [Commented()]
    for line in lines:
        last = found[-1]
        if line.startswith(BESIDE) and (last.texts or found[1:]):
            last = last if last.texts else found[-2]
            last.beside[len(last.texts) - 1] = line[len(BESIDE):]
        elif line.startswith("#"):
            last.above.setdefault(len(last.texts), []).append(own_sign(line))
        elif line.strip(" \t"):
            last.texts.append(line.strip(" \t"))
            if last.texts[-1] in ("END", ".END."):
                found.append(Commented())
    if found[1:] and not found[-1].texts:
        rest = found.pop().above.get(0, [])
        found[-1].above.setdefault(len(found[-1].texts), []).extend(rest)
    return found


def own_sign(line: str) -> str:
    """Returns a comment of a block with the sign that it had in its listing."""
    return line[len(OWN):] if re.match(r"# (?:;|//)", line) else line


def matching(programs: List[List[str]], deck: bytes) -> Iterator[Commented]:
    """Yields for each program of a memory, a list of its lines with its END, what its deck has with the same lines."""
    left = in_deck(deck)
    for texts in programs:
        at = next((at for at, one in enumerate(left) if without_end(one.texts) == without_end(texts) and texts), None)
        yield Commented(texts) if at is None else left.pop(at)


def without_end(texts: List[str]) -> List[str]:
    """Returns the lines of a program without its END."""
    return texts[:-1] if texts[-1:] in (["END"], [".END."]) else texts
