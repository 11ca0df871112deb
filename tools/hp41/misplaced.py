"""What a file is that a tool does not read, by its content or its name, and which tool reads it. Only errors need this module, and the
first bytes of packed archives and documents."""
from __future__ import annotations

import os
import re

# How files begin that have other files in them: .zip, .gz, .7z, .rar, .bz2 and .xz.
PACKED = (b"PK\x03\x04", b"\x1f\x8b", b"7z\xbc\xaf", b"Rar!", b"BZh", b"\xfd7zXZ")
UNPACK = "this is a packed archive, such as .zip or .gz: unpack it first"

# How documents begin that are not plain text, and what they are.
DOCUMENTS = {rb"\s*\{\\rtf": "a document of a word processor (RTF)", rb"%PDF": "a document in PDF",
             rb"\s*(?:<\?xml[^>]*>\s*)?<(?:!DOCTYPE\s+html|html|head|body)\b": "a page of the web (HTML)"}
# The first file in a zip archive that is a document of a word processor.
IN_DOCUMENTS = (b"[Content_Types].xml", b"_rels/", b"docProps/", b"word/", b"mimetypeapplication/vnd.oasis")

SOURCE, CASES, PROJECT, TABLE = "a source", "a file of cases", "a project file", "a table"
DECK, CALLS, IMAGE = "a deck", "a file of commands", "an image of pages"
BY_NAME = {".asm": SOURCE, ".src": SOURCE, ".cases": CASES, ".toml": PROJECT, ".csv": TABLE, ".deck": DECK, ".calls": CALLS, ".rom": IMAGE,
           ".mod": IMAGE}
# What to do with a file of each kind.
USES = {SOURCE: "tools/lint checks it, tools/import makes a deck of it, and `source` of a project names it",
        CASES: "`tools/module test` runs it", PROJECT: "use tools/module", TABLE: "`tools/module test --table` runs it",
        DECK: "./bench run runs it", CALLS: "give it to tools/import after a source", IMAGE: "tools/import makes a deck of it"}

NO_DECK = "a source or a listing is not a deck: make one with `tools/import FILE`"


def wrong_page(text: str) -> str:
    """Returns the error about an option --page with a text that is no page."""
    bare = re.fullmatch(r"(?:0X|\$|P)?([4-9A-F])(?:000)?H?", text.upper())
    own = (f": pages are hexadecimal: {text} is {int(text):X}" if text.isdecimal() and 9 < int(text) < 16 else
           f": write --page {bare[1]}" if bare else "")
    return f"--page {text}: expected a page from 4 to F{own}"


def kind_of(path: str) -> str:
    """Returns what a file is by its name; an empty text if the name does not say it."""
    return BY_NAME.get(os.path.splitext(path)[1].lower(), "")


def of_content(data: bytes) -> str:
    """Returns what a file is by its first bytes if it is a packed archive or a document, and what to do; an empty text if it is neither."""
    if data.startswith(PACKED):
        is_document = data[:2] == b"PK" and data[30:].startswith(IN_DOCUMENTS)
        return "this is a document of a word processor (.docx or .odt): save it as plain text" if is_document else UNPACK
    start = data.removeprefix(b"\xef\xbb\xbf")[:1000]
    return next((f"this is {what}: save it as plain text" for form, what in DOCUMENTS.items() if re.match(form, start, re.I)), "")


def what_is(path: str, *kinds: str) -> str:
    """Returns that a file is of one of these kinds, and what to do with it; an empty text if it is none of them."""
    kind = kind_of(path)
    return f"this is {kind}: {USES[kind]}" if kind in kinds else ""


def other_than(path: str, wanted: str, uses: dict[str, str]) -> str:
    """Returns that a file is of another kind than the wanted one, and what to do: that of `uses`, or the usual one. Returns an empty text
    if the name does not say it."""
    kind = kind_of(path)
    return f"this is {kind}, expected {wanted}: {uses.get(kind, USES[kind])}" if kind and kind != wanted else ""
