"""Prints what a command of decks does, or the nearest command to a wrong one.

usage: tools/help COMMAND [WORD]       (`./bench help COMMAND` calls it)
       tools/help --nearest WORD..     prints what the words of a wrong command line of `bench` may mean
       tools/help --refused DECK       prints the nearest command to each command of a deck that was refused as BadCommand (50)

COMMAND is the first word of a command, such as `show`, and WORD its second, such as `cpu`. For each command that begins so, its form
and its effect are printed, as docs/DECK.md has them; for `end`, the commands that have a block. A word that is similar to a command
is corrected, and standard error says so.

Status 0: the answer is printed, or there is nothing to say. 1: no command is similar, or it is a tool. 2: the command line is wrong.
3: the deck cannot be read, or the output cannot be written. 70: the bench gave no answer."""
import os
import re
import sys
from difflib import SequenceMatcher
from typing import Iterable, Iterator

from .. import TOOLS
from ..command_causes import is_no_deck
from ..decks import Failure, bytes_of, lines_of, refused, shown, words_of
from ..documents import codes_of, plain, section_of, tables_of
from ..matches import begin
from ..misplaced import CALLS, CASES, DECK, IMAGE, NO_DECK, PROJECT, SOURCE, TABLE, kind_of, what_is

JOBS = ("run", "asm", "dis", "help", "prove")
BAD_COMMAND = "! 50 BadCommand"

# The bytes of an image of a page.
IMAGE_SIZE = 8192

# The name of a command in its form.
NAME = re.compile(r"(?:show|break|unbreak) \w+|\w+")

# How similar two words must be, from 0 to 1.
SIMILAR = 0.6


def commands() -> list[tuple[str, str, str]]:
    """Returns the commands of decks: for each its name, such as `show cpu`, its form and its effect."""
    found = []
    for cell, effect in tables_of(section_of("DECK.md", "Commands"))[0]:
        form = codes_of(cell)[0]
        name = begin(NAME, form)[0]
        found.append((name, cell.replace("`", ""), plain(effect).replace("`", "")))
    return found


def nearest(words: list[str], names: Iterable[str]) -> str:
    """Returns the name that is most similar to the beginning of some words, in any case; an empty text if none is similar."""
    best, most = "", SIMILAR
    for name in names:
        count = len(name.split())
        if len(words) >= count:
            ratio = SequenceMatcher(None, " ".join(words[:count]).lower(), name).ratio()
            if ratio > most or ratio == most and not best:
                best, most = name, ratio
    return best


def is_tool(word: str) -> bool:
    """Returns whether a word is the name of a tool."""
    tool = os.path.join(TOOLS, word)
    return bool(re.fullmatch("[a-z]+", word)) and os.path.isfile(tool) and os.access(tool, os.X_OK)


def option_meant(words: list[str]) -> str:
    """Returns the option of `bench asm` or `bench dis` that is meant by one of the tools; an empty text if there is none."""
    for option, after in zip(words, [*words[1:], ""]):
        name, _, value = option.partition("=")
        if name in ("--page", "--org", "--at", "--address", "--start", "--base"):
            value = (value or after).upper()
            own = f"{value}000" if re.fullmatch("[0-9A-F]", value) else value if re.fullmatch("[0-9A-F]{4}", value) else "HHHH"
            return f"did you mean `--origin {own}`?"
    return ""


def file_meant(job: str, path: str) -> str:
    """Returns what the file is that `bench asm` or `bench dis` could not read; an empty text if it is of the wanted kind."""
    if not os.path.isfile(path):
        return ""
    if job == "asm":
        # Only these two need this module.
        from ..sources import Faulty, source_in
        try:
            source_in(path)
        except Faulty as why:
            return str(why)
        return f"tools/lint {path} prints the usual cause of each refused line, with its column"
    wanted = "expected words as text, hexadecimal digits"
    if kind_of(path) == IMAGE or os.path.getsize(path) == IMAGE_SIZE and b"\0" in bytes_of(path):
        out = os.path.splitext(path)[0] + ".asm"
        return f"{path}: this is an image, {wanted}: its source is written by `tools/export source {path} {out}`"
    if kind_of(path) == SOURCE:
        return f"{path}: this is a source, {wanted}: ./bench asm prints its words"
    other = what_is(path, DECK, CASES, PROJECT, TABLE, CALLS)
    return f"{path}: {other.replace(': ', f', {wanted}: ', 1)}" if other else ""


def hint(words: list[str]) -> str:
    """Returns what a wrong command line of `bench` may mean; an empty text if nothing is likely."""
    if words[0] in ("asm", "dis"):
        return option_meant(words[1:]) or file_meant(words[0], words[-1])
    names = [name for name, _, _ in commands()]
    firsts = list(dict.fromkeys(name.split()[0] for name in names))
    where = "type it after `bench run -`, or put it into a deck"
    if os.path.isfile(words[0]):
        return f"did you mean `bench run {words[0]}`?"
    if words[0] in firsts:
        name = nearest(words[:2], names) or words[0]
        asked = "" if " ".join(words).startswith(name) or len(words) < 2 else f"did you mean `{name}`? "
        return f"{asked}`{words[0]}` is a command of decks (see bench help {words[0]}): {where}"
    if is_tool(words[0]):
        return f"did you mean the tool tools/{words[0]}?"
    job = nearest(words[:1], JOBS)
    if job:
        return f"did you mean `bench {job}`?"
    name = nearest(words[:2], [*names, *firsts])
    return f"did you mean `{name}`? It is a command of decks (see bench help {name}): {where}" if name else ""


def of_deck(path: str) -> Iterator[str]:
    """Yields the hints for a deck: one for each refused command to which another is similar."""
    lines = lines_of(bytes_of(path))
    names, found = [name for name, _, _ in commands()], refused(b"".join(lines))[1]
    if is_no_deck(lines, ((first, refusal) for first, _, refusal in found)):
        yield NO_DECK
        return
    for first, _, refusal in found:
        words = [word.decode("latin-1") for word in words_of(lines[first])]
        name = nearest(words, names) if refusal == BAD_COMMAND and words else ""
        if name and " ".join(words[:len(name.split())]) != name:
            yield f"line {first + 1}: `{shown(' '.join(words))}`: did you mean `{name}`?"


def explain(words: list[str]) -> None:
    """Prints the commands that begin with some words."""
    every = commands()
    rows = [row for row in every if row[0].split()[:len(words)] == words or words == ["end"] and row[1].endswith(" end")]
    if not rows and is_tool(words[0]):
        raise Failure(f"`{words[0]}` is a tool, not a command of decks: tools/{words[0]} --help explains it")
    if not rows:
        name = nearest(words, [name for name, _, _ in every] + [name.split()[0] for name, _, _ in every])
        if not name:
            raise Failure(f"no command is like `{shown(' '.join(words))}`: ./bench help prints all commands")
        print(f"help: there is no command `{shown(' '.join(words))}`: this is `{name}`", file=sys.stderr)
        rows = [row for row in every if row[0].startswith(name)]
    width = max(len(form) for _, form, _ in rows)
    print(*(f"{form:<{width}}  {effect}" for _, form, effect in rows), sep="\n")


def main(words: list[str]) -> int:
    """Prints what is asked for. Returns the status."""
    if words in (["-h"], ["--help"]):
        print(__doc__.strip())
        return 0
    if words[:1] == ["--nearest"] and words[1:]:
        found = [hint(words[1:])]
    elif words[:1] == ["--refused"] and len(words) == 2:
        found = list(of_deck(words[1]))
    elif words and not words[0].startswith("-") and len(words) < 3:
        explain(words)
        return 0
    else:
        asked = f"'{' '.join(words)}'" if words else "nothing"
        raise Failure(f"found {asked}, expected a command, for example tools/help show cpu", 2)
    print(*(f"bench: {line}" for line in found if line), sep="\n", end="\n" if any(found) else "")
    return 0
