"""Reads tables of the documents, so that each of them is in one place only."""
import os
import re

from . import TOP
from .decks import Failure, bytes_of

DOCS = os.path.join(TOP, "docs")


def section_of(document: str, heading: str) -> str:
    """Returns the text of a section of a document, up to the next heading of the same level or a higher one."""
    text = bytes_of(os.path.join(DOCS, document)).decode("utf-8")
    found = re.search(rf"^(#+) {re.escape(heading)}\n(.*)", text, re.M | re.S)
    if not found:
        raise Failure(f"docs/{document}: no section '{heading}', whose tables this tool reads: restore the heading")
    level, behind = found.groups()
    return re.split(rf"^#{{1,{len(level)}}} ", behind, maxsplit=1, flags=re.M)[0]


def cells_of(row: str) -> list[str]:
    """Returns the cells of a table row."""
    return [cell.strip().replace("\\|", "|") for cell in re.split(r"(?<!\\)\|", row)[1:-1]]


def tables_of(section: str) -> list[list[list[str]]]:
    """Returns the tables of a section, each as a list of rows without its head. A row is a list of cells."""
    found = re.findall(r"(?:^\|.*\n)+", section, re.M)
    return [[cells_of(row) for row in table.splitlines()[2:]] for table in found]


def plain(text: str) -> str:
    """Returns a text of a document without links and bold type."""
    return re.sub(r"\[([^]]*)\]\([^)]*\)", r"\1", text).replace("**", "")


def pairs_of(table: list[list[str]]) -> list[tuple[str, str]]:
    """Returns pairs from a table that has one name of this bench and one or more names elsewhere in each row: each name elsewhere, and
    the name of this bench."""
    return [(other, codes_of(here)[0]) for here, there, *_ in table for other in codes_of(there)]


def codes_of(cell: str) -> list[str]:
    """Returns the texts in backquotes in a cell."""
    return re.findall(r"`([^`]*)`", cell)
