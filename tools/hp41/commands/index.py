"""Writes the index of the documents, docs/INDEX.md.

usage: tools/index >docs/INDEX.md

The index lists the mnemonics and directives of the assembler, the functions of program lines, the keys, the commands of decks, the
refusals, the messages and the tools, each with the section that explains it. Names and sections are read from the tables of the
documents and from the keyboard. A name without a section is an error.

Status 0: the index is written. 1: a name has no section; standard error lists these names. 2: the command line is wrong."""
import os
import re
import sys
from typing import Callable, Iterable, Optional, Sequence

from .. import TOP
from ..decks import Failure
from ..documents import codes_of, section_of, tables_of
from ..keyboard import KEYS

# The documents in which names are looked for.
WORDS, SOURCES, LINES, BYTES = "PROCESSOR.md", "ASSEMBLER.md", "LINES.md", "PROGRAMS.md"
COMMANDS, KEYBOARD, UNSUPPORTED = "DECK.md", "KEYBOARD.md", "NOT-SUPPORTED.md"

# Sections of LINES.md that name lines in their tables, but do not explain them.
SKIPPED = ("How to read the tables", "Stack lift", "Operands")

# The functions of keys whose names are not the function's own.
FUNCTIONS_OF_KEYS = {"SIGMA+": "S+", "ENTER": "ENTER^"}

HEAD = """# Index

Made by `tools/index` from the tables of the documents. Each name leads to the section that explains it.

- [Words of the processor](#words-of-the-processor), and directives of the assembler
- [Functions](#functions) of program lines
- [Keys](#keys)
- [Commands](#commands) of decks
- [Refusals](#refusals)
- [Messages](#messages)
- [Tools](#tools)
"""


def text_of(document: str) -> str:
    """Returns the text of a document."""
    with open(os.path.join(TOP, "docs", document), encoding="utf-8") as file:
        return file.read()


def anchor_of(heading: str) -> str:
    """Returns the anchor of a heading: in lower case, without punctuation, with a hyphen for each space."""
    name = re.sub(r"\[([^\]]*)\]\([^)]*\)", r"\1", heading).lower()
    return re.sub(r"[^\w\- ]", "", name).replace(" ", "-")


class Document:
    """The sections of a document, each up to the next heading."""

    def __init__(self, name: str) -> None:
        """Reads a document by its name."""
        self.name = name
        parts = re.split(r"^(#+ .*)$", re.sub(r"^```.*?^```$", "", text_of(name), flags=re.M | re.S), flags=re.M)
        self.sections = [(heading.lstrip("# "), text) for heading, text in zip(parts[1::2], parts[2::2])]

    def link(self, heading: str) -> str:
        """Returns a link to a section; its text is the heading."""
        plain = re.sub(r"\[([^\]]*)\]\([^)]*\)", r"\1", heading)
        return f"[{self.name}: {plain.replace('`', '')}]({self.name}#{anchor_of(heading)})"

    def first(self, holds: Callable[[str, str], object]) -> Optional[str]:
        """Returns a link to the first section for which `holds` is true of its heading and text, or None."""
        return next((self.link(heading) for heading, text in self.sections if holds(heading, text)), None)

    def cells(self, text: str, columns: int) -> set[str]:
        """Returns the texts in backquotes in the first columns of the tables of a section."""
        return {code for table in tables_of(text) for row in table for cell in row[:columns] for each in codes_of(cell)
                for code in each.split(" / ")}

    def in_tables(self, name: str, columns: int, skipped: Sequence[str] = ()) -> Optional[str]:
        """Returns a link to the first section whose tables have a name in the first columns, alone or with operands."""
        return self.first(lambda heading, text: heading not in skipped
                          and any(code == name or code.startswith(f"{name} ") for code in self.cells(text, columns)))

    def in_codes(self, name: str) -> Optional[str]:
        """Returns a link to the first section that has a name in backquotes, alone or with operands."""
        return self.first(lambda _, text: any(code == name or code.startswith(f"{name} ") for code in codes_of(text)))


def by_name(names: Iterable[str]) -> list[str]:
    """Sorts names for an index: by letters and digits first, then by the whole name."""
    return sorted(names, key=lambda name: (re.sub(r"\W", "", name).upper(), name))


def table(head: list[str], rows: Iterable[list[str]]) -> str:
    """Returns a table in Markdown. Its rows are lists of cells."""
    def line(cells: list[str]) -> str:
        """Returns a row of the table."""
        return f"| {' | '.join(cells)} |\n"

    return line(head) + "|---" * len(head) + "|\n" + "".join(map(line, rows))


def code(text: str) -> str:
    """Returns a text in backquotes."""
    return f"`{text}`"


class Index:
    """The index. Names without a section are collected in `missing`."""

    def __init__(self) -> None:
        """Reads the documents."""
        self.documents = {name: Document(name) for name in (WORDS, SOURCES, LINES, BYTES, COMMANDS, KEYBOARD, UNSUPPORTED)}
        self.missing: list[str] = []

    def found(self, name: str, *links: Optional[str]) -> str:
        """Returns the first link that is not None."""
        link = next(filter(None, links), None)
        if link is None:
            self.missing.append(name)
        return link or ""

    def words(self) -> str:
        """Returns the table of the mnemonics and the directives."""
        from ..dialects import own_names
        processor, assembler = self.documents[WORDS], self.documents[SOURCES]
        directives = {found[0] for line in assembler.cells(section_of(SOURCES, "Directives"), 1)
                      for found in [re.match(r"[A-Z]+(?= )", line)] if found}
        rows = [[code(name), self.found(name, assembler.link("Directives") if name in directives else None,
                                        processor.in_tables(name, 2), processor.in_codes(name))]
                for name in by_name(own_names() | directives)]
        return table(["Word or directive", "Section"], rows)

    def functions(self) -> str:
        """Returns the table of the functions of program lines: those of the byte table, and those of more than one byte."""
        lines, unsupported = self.documents[LINES], self.documents[UNSUPPORTED]
        named = re.findall(r"^    [4-9] (.*)$", section_of(BYTES, "Functions"), re.M)
        names = {name for row in named for name in row.split()}
        names |= {"SF", "CF", "FS?C", "FC?C", "FS?", "FC?", "X<>", "LBL", "GTO", "XEQ", "XROM", "W", "END", ".END.", "GTO IND", "XEQ IND"}
        refused = {text.split(" ")[0] for row in tables_of(section_of(UNSUPPORTED, "Program lines"))[0] for text in codes_of(row[0])
                   if " " not in text or text.startswith(("SREG ", "W "))}
        rows = []
        for name in by_name(names):
            link = unsupported.in_tables(name, 1) if name in refused else lines.in_tables(name.split(" ")[0], 1, SKIPPED)
            rows.append([code(name), self.found(name, link), "no" if name in refused else "yes"])
        return table(["Function", "Section", "Supported"], rows)

    def keys(self) -> str:
        """Returns the table of the keys: what each does alone and after SHIFT, and where this is explained."""
        lines, unsupported, keyboard = self.documents[LINES], self.documents[UNSUPPORTED], self.documents[KEYBOARD]
        special = {"SHIFT": "SHIFT", "ALPHA": "ALPHA", "PRGM": "Program mode", "R/S": "Functions", "SST": "Functions", "BST": "Functions",
                   "BACK": "Numbers", "EEX": "Numbers", "ON": None, "USER": None, "GTO": "Functions", "XEQ": "Functions",
                   "RTN": "Functions"}

        def of(name: str) -> Optional[str]:
            """Returns a link to the section about a function of a key."""
            if name in special:
                heading = special[name]
                return keyboard.link(heading) if heading else unsupported.link("Keys")
            if re.fullmatch(r"[0-9.]", name):
                return keyboard.link("Numbers")
            name = FUNCTIONS_OF_KEYS.get(name, name)
            return lines.in_tables(name, 1, SKIPPED) or unsupported.in_tables(name, 1)

        rows = []
        for key in KEYS.values():
            rows.append([code(key.name), self.found(key.name, of(key.name)), code(key.shifted) if key.shifted else "",
                         self.found(key.shifted, of(key.shifted)) if key.shifted else ""])
        return table(["Key", "Section", "After SHIFT", "Section"], sorted(rows, key=lambda row: by_name(KEYS).index(row[0].strip("`"))))

    def commands(self) -> str:
        """Returns the table of the commands of decks."""
        deck = self.documents[COMMANDS]
        names = [codes_of(row[0])[0] for row in tables_of(section_of(COMMANDS, "Commands"))[0]]

        def of(name: str) -> Optional[str]:
            """Returns a link to the section about a command."""
            first = name.split(" ")[0]
            return (deck.first(lambda heading, _: heading.replace("`", "") == first)
                    or deck.first(lambda heading, text: heading != "Commands" and re.search(rf"\*\*`{re.escape(first)}\b", text))
                    or (deck.first(lambda heading, _: heading == "Views") if first == "show" else None)
                    or deck.in_tables(first, 1, ("Commands", "If you see…"))
                    or deck.first(lambda heading, _: heading.lower().startswith(first.removeprefix("un")))
                    or deck.in_tables(first, 1))

        return table(["Command", "Section"], [[code(name), self.found(name, of(name))] for name in sorted(names)])

    def refusals(self) -> str:
        """Returns the table of the refusals, from the lists of DECK.md and ASSEMBLER.md."""
        rows: dict[tuple[str, str], str] = {}
        for document in (self.documents[COMMANDS], self.documents[SOURCES]):
            for heading, text in document.sections:
                for number, name in re.findall(r"^- `! (\d\d) (\w+)[^`]*`: ", text, re.M):
                    rows.setdefault((number, name), document.link(heading))
        return table(["Number", "Refusal", "Section"], [[number, f"{name}", link] for (number, name), link in sorted(rows.items())])

    def messages(self) -> str:
        """Returns the table of the calculator's messages."""
        heading, text = next((heading, text) for heading, text in self.documents[LINES].sections if "| Message |" in text)
        names = [row[0] for table_ in tables_of(text) for row in table_]
        link = self.documents[LINES].link(heading)
        keyboard = self.documents[KEYBOARD]
        return table(["Message", "Section"], [*([name, link] for name in sorted(names)), ["NO, YES", keyboard.link("Functions")]])

    def tools(self) -> str:
        """Returns the table of the tools, each with the section of tools/README.md that names it."""
        with open(os.path.join(TOP, "tools", "README.md"), encoding="utf-8") as file:
            parts = re.split(r"^(#+ .*)$", file.read(), flags=re.M)
        sections = [(heading.lstrip("# "), text) for heading, text in zip(parts[1::2], parts[2::2])]
        rows = []
        for name in sorted(os.listdir(os.path.join(TOP, "tools"))):
            path = os.path.join(TOP, "tools", name)
            if os.path.isfile(path) and os.access(path, os.X_OK):
                heading = next((heading for heading, text in sections if f"**`tools/{name}`" in text),
                               next((heading for heading, text in sections if f"`tools/{name}" in text), None))
                link = heading and f"[tools/README.md: {heading}](../tools/README.md#{anchor_of(heading)})"
                rows.append([code(f"tools/{name}"), self.found(f"tools/{name}", link)])
        return table(["Tool", "Section"], rows)

    def text(self) -> str:
        """Returns the whole index."""
        parts = [("Words of the processor", self.words()), ("Functions", self.functions()), ("Keys", self.keys()),
                 ("Commands", self.commands()), ("Refusals", self.refusals()), ("Messages", self.messages()), ("Tools", self.tools())]
        return HEAD + "".join(f"\n## {heading}\n\n{body}" for heading, body in parts)


def main(words: list[str]) -> int:
    """Prints the index. Returns the status."""
    if words in (["--help"], ["-h"]):
        print(__doc__.strip())
        return 0
    if words:
        print(f"index: unexpected word '{words[0]}': expected none; see --help", file=sys.stderr)
        return 2
    try:
        index = Index()
        text = index.text()
    except Failure as failure:
        print(f"index: {failure}", file=sys.stderr)
        return 1
    looked_in = re.sub(r", (?=[^,]*$)", " or ", "docs/" + ", ".join(index.documents))
    for name in index.missing:
        print(f"index: no section of {looked_in} explains {name}: add it to a table", file=sys.stderr)
    if index.missing:
        return 1
    sys.stdout.write(text)
    return 0
