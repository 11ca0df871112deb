"""The keys of the calculator: what is printed on each key, above it and below it, and its code. The picture in docs/KEYBOARD.md and
docs/keyboard.svg are made from this table, and `.ci/keys` checks by it what each key does."""
from typing import Iterable, Iterator, NamedTuple, Optional


class Key(NamedTuple):
    """A key: its name, its function after SHIFT, its letter, its row (the top row is 0) and its column (from 1)."""
    name: str
    shifted: Optional[str]
    letter: Optional[str]
    row: int
    column: int

    @property
    def code(self) -> int:
        """The code of the key for microcode: a digit for the row and a digit for the column."""
        return 16 * self.row + self.column


# A line for each row of keys; two or more spaces separate the keys. A key has a name, a function after SHIFT and a letter; `none` means
# that it has none. `space` is character 20.
LAYOUT = """
ON none none     USER none none   PRGM none none   ALPHA none none
SIGMA+ S- A      1/X Y^X B        SQRT X^2 C       LOG 10^X D       LN E^X E
X<>Y CLS F       RDN % G          SIN ASIN H       COS ACOS I       TAN ATAN J
SHIFT none none  XEQ none K       STO LBL L        RCL GTO M        SST BST none
ENTER none N     CHS ISG O        EEX RTN P        BACK CLX none
- X=Y? Q         7 SF R           8 CF S           9 FS? T
+ X<=Y? U        4 BEEP V         5 P-R W          6 R-P X
* X>Y? Y         1 FIX Z          2 SCI =          3 ENG ?
/ X=0? :         0 PI space       . LASTX ,        R/S VIEW none
"""


def rows() -> list[list[Key]]:
    """Returns the rows of keys, from the top."""
    def each(words: list[str], row: int, column: int) -> Key:
        """Returns the key of three words of the layout."""
        name = words[0]
        shifted, letter = (None if word == "none" else word for word in words[1:])
        return Key(name, shifted, " " if letter == "space" else letter, row, column)

    found = []
    for row, line in enumerate(LAYOUT.split("\n")[1:-1]):
        words = line.split()
        found.append([each(words[at:at + 3], row, at // 3 + 1) for at in range(0, len(words), 3)])
    return found


ROWS = rows()
KEYS = {key.name: key for row in ROWS for key in row}


def letter_text(key: Key) -> str:
    """Returns the letter of a key for a picture."""
    return "space" if key.letter == " " else key.letter or ""


def picture() -> str:
    """Returns the keyboard in characters, as in docs/KEYBOARD.md: for each row the functions after SHIFT, the keys, and the letters."""
    def line(texts: Iterable[str]) -> str:
        """Returns a line of texts, each in the middle of its column."""
        return "  ".join(text.center(9) for text in texts).rstrip()

    parts = []
    for row in ROWS:
        lines = [line(key.shifted or "" for key in row), line(f"[{key.name}]" for key in row),
                 line(map(letter_text, row))]
        parts.append("".join(f"{text}\n" for text in lines if text))
    return "\n".join(parts)


# How many letters are on a line of the list.
LETTERS_ON_A_LINE = 8


def letters() -> str:
    """Returns the keys by their letters, as in docs/KEYBOARD.md."""
    found = sorted((not key.letter.isalpha(), letter_text(key), key.name) for key in KEYS.values() if key.letter)
    pairs = [f"{letter} {name}" for _, letter, name in found]
    lines = [pairs[at:at + LETTERS_ON_A_LINE] for at in range(0, len(pairs), LETTERS_ON_A_LINE)]
    return "".join("".join(f"{pair:<11}" for pair in line).rstrip() + "\n" for line in lines)


# The sizes in docs/keyboard.svg: margins, the width of a column, and the height of a row.
MARGIN, COLUMN, ROW, TOP = 24, 120, 96, 52
KEY_WIDTH, KEY_HEIGHT = 92, 36
WIDTH = 2 * MARGIN + 5 * COLUMN

STYLE = """
.key { fill: #2f2f33; stroke: #111; }
.shift { fill: #b8860b; stroke: #111; }
.name { fill: #fff; font-size: 16px; font-weight: bold; }
.shifted { fill: #8a5a00; font-size: 14px; }
.letter { fill: #0b4fa0; font-size: 14px; font-weight: bold; }
.code { fill: #666; font-size: 11px; }
.head { fill: #111; font-size: 14px; }
text { font-family: Verdana, Helvetica, Arial, sans-serif; text-anchor: middle; }
.left { text-anchor: start; }
"""


def escaped(text: str) -> str:
    """Returns a text for SVG."""
    return text.replace("&", "&amp;").replace("<", "&lt;").replace(">", "&gt;")


def places(row: list[Key]) -> list[tuple[float, float]]:
    """Returns the middle and the width of each key of a row. Rows of four keys are as wide as rows of five: ENTER is two keys wide, and
    in the other rows the keys are further apart."""
    if len(row) == 5:
        return [(MARGIN + COLUMN * (at + 0.5), KEY_WIDTH) for at in range(5)]
    if row[0].name == "ENTER":
        return [(MARGIN + COLUMN, KEY_WIDTH + COLUMN)] + [(MARGIN + COLUMN * (at + 0.5), KEY_WIDTH) for at in (2, 3, 4)]
    return [(MARGIN + COLUMN * 1.25 * (at + 0.5), KEY_WIDTH) for at in range(4)]


def drawn(key: Key, middle: float, width: float, top: float) -> Iterator[str]:
    """Yields the elements of a key: its function after SHIFT above it, its name on it, its letter below it, and its code at the right."""
    def text(kind: str, x: float, y: float, words: Optional[str]) -> str:
        """Returns a text as an element, or an empty text if there are no words."""
        return f'<text class="{kind}" x="{x:g}" y="{y:g}">{escaped(words)}</text>' if words else ""

    kind = "shift" if key.name == "SHIFT" else "key"
    left = middle - width / 2
    yield (f'<rect class="{kind}" x="{left:g}" y="{top:g}" width="{width:g}" height="{KEY_HEIGHT}" rx="5"/>')
    yield text("shifted", middle, top - 6, key.shifted)
    yield text("name", middle, top + 24, key.name)
    yield text("letter", middle, top + KEY_HEIGHT + 17, letter_text(key))
    yield text("code", left + width - 8, top + KEY_HEIGHT + 15, f"{key.code:02X}")


def svg() -> str:
    """Returns docs/keyboard.svg."""
    height = TOP + ROW * len(ROWS)
    parts = [f'<svg xmlns="http://www.w3.org/2000/svg" width="{WIDTH}" height="{height}" viewBox="0 0 {WIDTH} {height}">',
             "<title>The keys of the calculator</title>",
             f"<style>{STYLE}</style>",
             f'<rect width="{WIDTH}" height="{height}" fill="#fff"/>',
             f'<text class="head left" x="{MARGIN}" y="26">'
             '<tspan class="shifted">above a key: after SHIFT</tspan>'
             '<tspan class="letter" dx="24">below it: its letter</tspan>'
             '<tspan class="code" dx="24" style="font-size: 13px">and its code, in hexadecimal</tspan></text>']
    for number, row in enumerate(ROWS):
        for key, (middle, width) in zip(row, places(row)):
            parts += filter(None, drawn(key, middle, width, TOP + ROW * number + 14))
    return "\n".join(parts) + "\n</svg>\n"
