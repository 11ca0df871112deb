"""Writes the manual page of the program, made from its help.

usage: tools/man >docs/bench.1

Run this tool after each change of the help; .ci/help compares the two.

Status 0: the page is written. 2: the command line is wrong."""
import re
import subprocess
import sys
from typing import Iterable, Iterator

from .. import TOP


def said(*words: str) -> str:
    """Returns the output of the program for some words."""
    ran = subprocess.run([f"{TOP}/bench", *words], stdin=subprocess.DEVNULL, stdout=subprocess.PIPE, check=True)
    return ran.stdout.decode()


def help_of(*words: str) -> tuple[str, dict[str, list[str]], list[str]]:
    """Returns the parts of a help text: its first sentence, its sections by heading, and the other paragraphs."""
    about, *parts = [part.rstrip("\n") for part in said(*words).split("\n\n") if part.strip()]
    sections: dict[str, list[str]] = {}
    rest: list[str] = []
    for part in parts:
        heading = re.match(r"(Usage|Commands|Arguments|Options):\s+", part)
        if heading and not rest:
            sections[heading[1]] = part[heading.end():].split("\n")
        else:
            rest.append(part)
    return about, sections, rest


def escaped(text: str) -> str:
    """Escapes a text for roff."""
    text = text.replace("\\", "\\e").replace("-", "\\-")
    return "\\&" + text if text[:1] in (".", "'") else text


def line_of(text: str) -> str:
    """Returns a line of prose, with text in backquotes in bold."""
    return re.sub(r"`([^`]*)`", r"\\fB\1\\fP", escaped(text))


def items(lines: Iterable[str]) -> Iterator[str]:
    """Yields a list: each line has a name and, after two spaces, its description."""
    for line in lines:
        name, text = re.split(r"\s{2,}", line.strip(), maxsplit=1)
        yield from (".TP", ".B " + escaped(name), line_of(text))


def paragraphs(parts: Iterable[str]) -> Iterator[str]:
    """Yields paragraphs. Indented ones are decks, sources, lists of words, or lists of commands."""
    for part in parts:
        lines = part.split("\n")
        if lines[0].startswith("    "):
            yield from (".PP", ".RS 4", ".nf", *(escaped(line[4:]) for line in lines), ".fi", ".RE")
        elif lines[0].startswith("  "):
            yield from items(lines)
        else:
            yield from (".PP", *map(line_of, lines))


def page() -> Iterator[str]:
    """Yields the lines of the page."""
    about, sections, decks = help_of("--help")
    version = re.split(r"[\s,]", said("--version"))[1]
    yield '.\\" Written by tools/man from the program\'s help.'
    yield f'.TH BENCH 1 "" "bench {version}" "An HP\\-41 bench"'
    yield ".SH NAME"
    yield f"bench \\- {line_of(about[0].lower() + about[1:])}"
    yield ".SH SYNOPSIS"
    yield ".nf"
    yield from (".B " + escaped(usage.strip()) for usage in sections["Usage"])
    yield ".fi"
    yield ".SH COMMANDS"
    yield from items(sections["Commands"])
    yield ".SH OPTIONS"
    _, of_run, _ = help_of("run", "--help")
    _, of_source, sources = help_of("asm", "--help")
    _, _, lists = help_of("dis", "--help")
    own = [line for line in of_run["Options"] + of_source["Options"] if "--memory" in line or "--origin" in line]
    options = of_source["Arguments"] + own + sections["Options"]
    yield from items(options)
    statuses = [part for part in decks if "status 0" in part]
    yield ".SH DECKS"
    yield from paragraphs(part for part in decks[:-1] if part not in statuses)
    yield ".SH SOURCES"
    yield from paragraphs(sources)
    yield ".SH LISTS OF WORDS"
    yield from paragraphs(lists)
    yield ".SH EXIT STATUS"
    yield from paragraphs(statuses)
    yield ".SH SEE ALSO"
    yield from paragraphs(decks[-1:])


def main(words: list[str]) -> int:
    """Prints the page. Returns the status."""
    if words in (["-h"], ["--help"]):
        print(__doc__.strip())
        return 0
    if words:
        print(f"man: unexpected word '{words[0]}': expected none; see --help", file=sys.stderr)
        return 2
    print("\n".join(page()))
    return 0
