"""What a deck leaves in memory and in pages: for tools/export."""
from __future__ import annotations

import os
import subprocess
from typing import Optional

from . import TOOLS
from .containers import BY_NAME
from .decks import NO_ANSWER, Failure, bytes_of, ended, items_of, lines_of, run
from .refusals import refusals_of

IMAGE_SIZE = 8192
LINES_OF_IMAGE = 256
PAGES = "456789ABCDEF"
BAD_COMMAND = "! 50 BadCommand"

# What to do if the bench reads something else than the tool has written.
REPORT = "please report this with the deck"

IMPORT = os.path.join(TOOLS, "import")
# The names of files from which tools/import makes a deck.
IMPORTED = (*BY_NAME, ".raw", ".txt", ".lst", ".lines", ".prg", ".rom", ".asm", ".src")

# Files that are plugged without a deck.
PLUGGED = (".rom", ".mod")


class State:
    """A deck that runs without a refusal, and what it leaves."""

    def __init__(self, path: str, page: Optional[str]) -> None:
        """Runs the deck in a file. Raises Failure if a command is refused."""
        self.path, deck = path, deck_of(path, page)
        status, output = run(deck)
        if status not in (0, 1):
            raise Failure(f"{path}: {ended(status, 'before the end of the deck')}")
        if status == 1:
            raise Failure(why_refused(path, deck))
        self.deck = deck if deck.endswith(b"\n") or not deck else deck + b"\n"
        self.own = len(output.splitlines())
        # The description of a page's end, if a writer makes one.
        self.end = b""

    def shown(self, commands: str) -> list[str]:
        """Returns the lines that commands print if they follow the deck."""
        status, output = run(self.deck + commands.encode())
        if status not in (0, 1):
            raise Failure(f"{self.path}: {ended(status, 'when the deck was run again')}")
        return output.decode().splitlines()[self.own:]


def deck_of(path: str, page: Optional[str]) -> bytes:
    """Returns the deck in a file, or the deck that tools/import makes of it. An image or a file .mod is plugged at a page, or at page 8;
    the bytes of each word may be in either order."""
    kind = os.path.splitext(path)[1].lower()
    if kind in PLUGGED:
        return plugged(path, page)
    if kind not in IMPORTED:
        return bytes_of(path)
    ran = subprocess.run([IMPORT, "--quiet", "--size", "0", "--", path], stdout=subprocess.PIPE, check=False)
    if ran.returncode:
        raise Failure(f"{path}: cannot be imported: see the messages of tools/import above",
                      NO_ANSWER if ran.returncode == NO_ANSWER else 1)
    return ran.stdout


def plugged(path: str, page: Optional[str]) -> bytes:
    """Returns a deck that plugs an image or a file .mod at a page, or at page 8."""
    ran = subprocess.run([IMPORT, "--quiet", "--swap", "--page", page or PAGES[4], path], stdin=subprocess.DEVNULL, stdout=subprocess.PIPE,
                         stderr=subprocess.PIPE, check=False)
    if ran.returncode == NO_ANSWER:
        raise Failure(ran.stderr.decode(errors="replace").strip(), NO_ANSWER)
    if ran.returncode:
        raise Failure(ran.stderr.decode(errors="replace").replace("import: ", "").strip())
    return ran.stdout


def why_refused(path: str, deck: bytes) -> str:
    """Returns the refusals of a deck; or only what to do, if the file has no command of a deck."""
    found = refusals_of(deck)[1]
    if found[1:] and len(found) == len(items_of(lines_of(deck))) and all(one.refusal == BAD_COMMAND for one in found):
        return (f"{path}: found no command of a deck, expected a deck: make one with tools/import --out NAME.deck {path}, or name a "
                "listing .txt, bytes of a program .raw")
    return "\n".join(f"{path}:{one.at() + 1}: {one.quoted()}" for one in found)


def lines_written(deck: bytes) -> tuple[list[str], Optional[str]]:
    """Returns the lines that a deck prints, and how its first refusal ends a sentence, for example `is refused (16 NoRoom)`; None if no
    command is refused."""
    status, output = run(deck)
    if status not in (0, 1):
        raise Failure(ended(status, "when it was asked to read the export again"))
    lines = output.decode().splitlines()
    refusal = next((f" ({line[2:]})" for line in lines if line.startswith("! ")), "")
    return lines, f"is refused{refusal}" if status or refusal else None


def images_of(state: State, pages: str, bank: int) -> dict[str, bytes]:
    """Returns the bytes of the images in this bank of these pages, by page. Pages without an image are omitted."""
    lines = state.shown("".join(f"show image {page} b{bank}\n" for page in pages))
    images = {}
    for page in pages:
        if lines[0] == "! 03 NotPlugged":
            del lines[0]
        elif lines[0].startswith("! "):
            raise Failure(f"{state.path}: page {page}: the bench refused to print the image: {lines[0]}: {REPORT}")
        else:
            images[page] = bytes.fromhex("".join(lines[:LINES_OF_IMAGE]))
            del lines[:LINES_OF_IMAGE]
            if len(images[page]) != IMAGE_SIZE:
                raise Failure(f"{state.path}: page {page}: the bench printed an image of {len(images[page])} bytes, expected {IMAGE_SIZE}: "
                              f"{REPORT}")
    return images


def page_of(state: State, page: Optional[str], bank: int) -> tuple[str, bytes]:
    """Returns the page to export and the image of its bank."""
    images = images_of(state, page or PAGES, bank)
    if not images:
        of_bank = f"bank {bank} of " if bank > 1 else ""
        raise Failure(f"{state.path}: nothing is plugged at {of_bank}page {page}: the deck must plug a module there" if page else
                      f"{state.path}: found no page with a bank {bank}: the deck must plug one" if bank > 1 else
                      f"{state.path}: no page is plugged: the deck must plug a module")
    if len(images) > 1:
        raise Failure(f"{state.path}: the pages {', '.join(images)} are plugged: choose one with --page")
    return images.popitem()
