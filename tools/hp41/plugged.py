"""The pages that a session has plugged: their names, which are that of the file, which tools/import writes as a comment before the block,
or that of the first label of the source; and whether they can be written."""
import re

from .addresses import Labels
from .decks import words_of

# The comment before a block that tools/import has made: the name of the file, and of a part of it.
OF_FILE = re.compile(rb"#[ \t]*(\S+\.[A-Za-z][A-Za-z0-9]{0,5}(?::\S+)?)[ \t]*")


class Names:
    """The names of the plugged banks, by page and bank."""

    def __init__(self) -> None:
        """Begins without names."""
        self.known: dict[tuple[str, str], str] = {}
        # The banks that can be written.
        self.written: set[tuple[str, str]] = set()

    def follow(self, lines: list[bytes], before: bytes, labels: Labels) -> None:
        """Notes what a block or command that the bench has accepted plugs or unplugs. `before` is the entry of the session before it, and
        `labels` are those of all sources, with this one."""
        words = words_of(lines[0])
        page = words[1].upper().decode()
        if words[0] == b"unplug":
            self.known = {place: name for place, name in self.known.items() if place[0] != page}
            return
        bank = next((word for word in words[2:] if word.startswith(b"b")), b"b1")
        found = OF_FILE.fullmatch((before.splitlines() or [b""])[-1])
        own = labels.pages.get(page.encode(), {}).get(bank, [])
        (self.written.add if b"rw" in words[2:] else self.written.discard)((page, bank[1:].decode()))
        self.known[page, bank[1:].decode()] = found[1].decode("utf-8", "replace") if found else own[0][1] if own else ""

    def pages(self, can_be_written: bool) -> list[str]:
        """Returns the pages of which each bank can be written, or of which none can."""
        others = {page for page, bank in self.known if ((page, bank) in self.written) != can_be_written}
        return sorted({page for page, _ in self.known} - others)

    def told(self) -> list[list[str]]:
        """Returns the plugged pages, each with the name of its first bank that has one; an empty text if none has one."""
        pages = sorted({page for page, _ in self.known})
        return [[page, next((name for place, name in sorted(self.known.items()) if place[0] == page and name), "")] for page in pages]

    def of(self, page: str, bank: str) -> str:
        """Returns the name of a bank; an empty text if it has none."""
        return self.known.get((page, bank), "")
