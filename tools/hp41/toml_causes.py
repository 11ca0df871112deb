"""Reads files in TOML. An error names the line and the column, and the usual cause, which the line shows."""
from __future__ import annotations

import re
from typing import Any

from .decks import Failure, bytes_of

# What Python adds to its messages: where the error is. At the end of the file it gives no place.
PLACE = re.compile(r"(.*) \(at (?:line (\d+), column (\d+)|end of document)\)", re.S)

# Characters that editors write in place of a quote.
CURLY = "“”„‘’«»"

# Lines with an error, each with its usual cause; the groups of the pattern replace the placeholders.
CAUSES = [
    (rf"[^#]*?[{CURLY}].*", "write a text in straight quotes, \" or '"),
    (r"[^#]*[=\[,]\s*(?:'[^'\"]*\"|\"[^'\"]*')\s*\]?\s*", "the quotes before and after a text differ"),
    (r"\s*(?:;|//|\*).*|[^#]*[\"'\]\d]\s*(?:;|//).*", "a comment begins with #"),
    (r"\s*\[[^\]#]*(?:#.*)?", "the bracket ] is missing"),
    (r"\s*\[\s*page[\s:/-]+(\w+)\s*\].*", "write a point between page and the name: [page.{0}]"),
    (r"\s*\[[\w.]+\]\s*([^#\s].*)", "a table has a line of its own: write {0} in the next line"),
    (r"\s*([\w.-]+)\s*==+\s*(.*)", "write one = between a key and its value: {0} = {1}"),
    (r"\s*([\w.-]+\s*=\s*(?:\"[^\"]*\"|'[^']*'|[\w.]+|\[.*\]))\s*[,;]\s*(?:#.*)?", "nothing may follow a value: write {0}"),
    (r"\s*(?:let|var|set|const|def)\s+([\w.-]+)\s*=\s*(.*)", "nothing may be before a key: write {0} = {1}"),
    (r"\s*([\w.-]+)\s*:.*", "write = between a key and its value, not a colon: {0} = .."),
    (r"\s*([\w.-]+)(?:\s+[^=\s#].*)?", "a line is a key, = and a value, for example {0} = .., or a table such as [page.MAIN]"),
    (r"\s*([\w.-]+)\s*=[\s=]*(?:#.*)?", "the value of {0} is missing"),
    (r"\s*([\w.-]+)\s*=\s*(True|False|TRUE|FALSE|yes|no|on|off)\s*(?:#.*)?", "found {1}, expected true or false"),
    (r"\s*([\w.-]+)\s*=\s*0+([0-9])\s*(?:#.*)?", "a decimal number must not begin with 0: write {0} = {1}"),
    (r"\s*([\w.-]+)\s*=\s*([0-9][0-9A-Fa-f]*[Hh]?|[^\s\"'\[#][^\s\"'#,\]]*)\s*(?:#.*)?",
     "write a text, an address or a word in quotes: {0} = \"{1}\""),
    (r"[^#]*\[[^\]]*(?:#.*)?", "the list has no ] at its end, or no comma between two names"),
    (r"[^#]*\\.*", "\\ in quotes begins a special character: write / between folders, or use single quotes"),
    (r"[^#]*=\s*(\"[^\"]*|'[^']*)", "the other quote is missing"),
    (r"[^#]*=\s*(?:\"[^\"]*\"|'[^']*')\s*[^\s#].*", "a line has one value; several are a list, for example [\"a.txt\", \"b.txt\"]"),
    (r"[^#]*\[.*", "a list is written with commas, and each name in it is in quotes: [\"a.txt\", \"b.txt\"]"),
]


def cause_of(line: str) -> str:
    """Returns the usual cause of an error in a line; an empty text if the line does not show one."""
    for pattern, cause in CAUSES:
        found = re.fullmatch(pattern, line)
        if found:
            return cause.format(*found.groups())
    return ""


def is_open(line: str) -> bool:
    """Returns whether a quote or bracket of a line is open at its end, or a key has no value."""
    code = re.sub(r"#.*", "", re.sub(r"\"[^\"]*\"|'[^']*'", "0", line))
    return '"' in code or "'" in code or code.count("[") > code.count("]") or bool(re.fullmatch(r"\s*[\w.-]+\s*=?\s*", code))


def place_of(lines: list[str], message: str) -> tuple[str, int, str]:
    """Returns Python's reason, and the number and the column of the line with the error, or 0 and an empty text. If a list or a text is not
    closed, it is the last line that opens one."""
    found = PLACE.fullmatch(message)
    why, number, column = (found[1], int(found[2] or 0), found[3] or "") if found else (message, 0, "")
    if number and why != "Unclosed array" or why.startswith("Cannot overwrite"):
        return why, number or max((at for at, line in enumerate(lines, 1) if line.strip()), default=0), column
    opened = next((at for at in range(number or len(lines), 0, -1) if is_open(lines[at - 1])), number)
    return why, opened, column if opened == number else ""


def first_of(lines: list[str], number: int) -> str:
    """Returns in words which line has the key or the table of a line already."""
    head, key = (re.compile(pattern) for pattern in (r"\s*\[+\s*([^\]]+?)\s*\]", r"\s*[\"']?([\w.-]+)[\"']?\s*="))
    found: dict[tuple[str, str], int] = {}
    section = ""
    for at, line in enumerate(lines, 1):
        table, one = head.match(line), key.match(line)
        section = table[1] if table else section
        first = found.setdefault((section, one[1] if one and not table else ""), at) if table or one else at
        if at == number and first != at:
            return f"line {first} has this {'table' if table else 'key'} already"
    return "this key or table is already in the file"


def toml_in(path: str) -> tuple[str, dict[str, Any]]:
    """Returns the text of a file in TOML, and its values."""
    # Python has it from version 3.11 on.
    import tomllib
    data = bytes_of(path)
    try:
        text = data.decode("utf-8-sig")
        return text, tomllib.loads(text)
    except UnicodeDecodeError as error:
        # (the offset is after the byte order mark, if there is one)
        at = error.start + len(data) - len(error.object)
        raise Failure(f"{path}:{data.count(10, 0, at) + 1}: byte {data[at]:02X} at offset {at} is not valid UTF-8: save the file as "
                      "UTF-8") from error
    except tomllib.TOMLDecodeError as error:
        lines = text.split("\n")
        why, number, column = place_of(lines, str(error))
        line = lines[number - 1].rstrip("\r") if number else ""
        is_twice = why.startswith(("Cannot overwrite", "Cannot declare", "Cannot mutate"))
        cause = first_of(lines, number) if is_twice else cause_of(line)
        column = str(len(line) - len(line.lstrip()) + 1) if is_twice and column else column
        place = f"{path}:{number}: `{line.strip()[:200]}`" if number else path
        raise Failure(f"{place}: {f'column {column}: ' if column else ''}not a file in TOML: {cause or why}") from error
