"""The imports that a file for the prover needs. Each module that a file imports costs the prover time, whether the file uses it or not."""
from __future__ import annotations

import re
from typing import Iterable

# An import of some names of a module, and one of a module under a name.
OF_NAMES, AS_NAME = re.compile(r"(use \S+)\.\{(.*)\}"), re.compile(r"use \S+ as (\w+)")
IMPORT, WORD = "use ", re.compile(r"[^\W\d]\w*")


def needed(line: str, words: set[str]) -> list[str]:
    """Returns an import without the names that are not among some words; nothing if none is left. Operators are always needed."""
    of_names, as_name = OF_NAMES.fullmatch(line), AS_NAME.fullmatch(line)
    if of_names:
        names = [name for name in of_names[2].split(", ") if name in words or not WORD.fullmatch(name)]
        return [f"{of_names[1]}.{{{', '.join(names)}}}"] if names else []
    return [line] if not as_name or as_name[1] in words else []


def words_in(lines: Iterable[str]) -> set[str]:
    """Returns the words in the lines of a file that are no imports."""
    return {word for line in lines if not line.startswith(IMPORT) for word in WORD.findall(line)}


def trimmed(text: str) -> str:
    """Returns the text of a file without the imports that it does not need."""
    lines = text.split("\n")
    words = words_in(lines)
    return "\n".join(one for line in lines for one in (needed(line, words) if line.startswith(IMPORT) else [line]))
