"""Entry points of the HP-41's operating system, from tools/entries.toml."""
import os
import re

from . import TOOLS
from .decks import bytes_of

TABLE = os.path.join(TOOLS, "entries.toml")
ROW = re.compile(r'(\w+) = "([0-9A-F]{4})" +# (\S+): (.*)')


def entries() -> dict[str, str]:
    """Returns the addresses of entry points by their names, both those of VASM and those that a source can have here."""
    found: dict[str, str] = {}
    for row in filter(None, map(ROW.fullmatch, bytes_of(TABLE).decode("utf-8").splitlines())):
        found[row[1]] = found[row[3]] = row[2]
    return found
