"""Prints which crates and which definitions depend on which, for docs/ARCHITECTURE.md and docs/PROOFS.md.

usage: tools/layers crates|definitions
       tools/layers --write

  crates       the crates of crates.txt in layers: each crate uses only crates of lower layers
  definitions  the definitions that the headline depends on: those that Deck.antt of h41_deck names, those that these name, and so
               on. For each crate the files in reading order, their lines, and the minutes that reading takes
  --write      writes both into the documents, between the lines `<!-- tools/layers .. -->` and `<!-- end -->`

Empty lines and imports are not counted. Reading ten lines takes about a minute.

Status 0: the output is written. 1: a document has no place for it. 2: the command line is wrong."""
import os
import re
import sys
from typing import Optional

from .. import TOP

ROOT = "crates/h41_deck/specs/Deck.antt"
LINES_A_MINUTE = 10
DOCUMENTS = {"crates": "docs/ARCHITECTURE.md", "definitions": "docs/PROOFS.md"}
COLUMNS = ("program", "laws", "tests")


# For each node the nodes that it depends on.
Graph = dict[str, list[str]]


def text_of(path: str) -> str:
    """Returns the text of a file, by its path from the top of the repository."""
    with open(f"{TOP}/{path}", encoding="utf-8") as file:
        return file.read()


def crates() -> Graph:
    """Returns the crates of crates.txt, each with the crates of this repository that it uses."""
    rows = {}
    for line in text_of("crates.txt").split("\n"):
        name, colon, others = line.partition("#")[0].partition(":")
        if colon:
            rows[name.split()[0]] = others.split()
    return {name: [other for other in others if other in rows] for name, others in rows.items()}


def layers(graph: Graph) -> dict[str, int]:
    """Returns the layer of each node: 0 if it depends on none, otherwise one more than the highest layer below it."""
    found: dict[str, int] = {}

    def layer(node: str) -> int:
        """Returns the layer of a node, and notes it."""
        if node not in found:
            found[node] = max((layer(other) + 1 for other in graph[node]), default=0)
        return found[node]

    for node in graph:
        layer(node)
    return found


def column(name: str) -> str:
    """Returns the column of a crate in the picture."""
    if name.startswith("h41_tests"):
        return "tests"
    return "laws" if name.startswith(("h41_laws_", "h41_reasoning", "h41_proved_")) else "program"


def wrapped(names: list[str], width: int) -> list[str]:
    """Puts names on lines of a limited width."""
    lines = [""]
    for name in names:
        if lines[-1] and len(f"{lines[-1]}  {name}") > width:
            lines.append("")
        lines[-1] = f"{lines[-1]}  {name}" if lines[-1] else name
    return lines


def picture_of_crates() -> str:
    """Returns the picture of the crates in layers."""
    found = layers(crates())
    lines = [f"    layer  {'program':44}{'laws':30}tests"]
    for number in sorted(set(found.values()), reverse=True):
        cells = [[name.removeprefix("h41_") for name in found if found[name] == number and column(name) == at] for at in COLUMNS]
        rows = [wrapped(names, width) for names, width in zip(cells, (42, 28, 20))]
        for at in range(max(map(len, rows))):
            first, second, third = (row[at] if at < len(row) else "" for row in rows)
            lines.append(f"    {number if at == 0 else '':>5}  {first:44}{second:30}{third}".rstrip())
    return "\n".join(lines) + "\n"


def file_of(module: str) -> Optional[str]:
    """Returns the file of definitions that a module's name leads to; None if it is not in this repository."""
    parts = module.split(".")
    if len(parts) > 3 and parts[1].startswith("h41_") and parts[2] == "specs":
        for count in range(len(parts), 3, -1):
            path = f"crates/{parts[1]}/specs/{'/'.join(parts[3:count])}.antt"
            if os.path.exists(f"{TOP}/{path}"):
                return path
    return None


def uses_of(path: str) -> list[str]:
    """Returns the files of definitions that a file imports from."""
    found = (file_of(module) for module in re.findall(r"^use (Rattle\.[\w.]+)", text_of(path), re.M))
    return sorted({other for other in found if other and other != path})


def definitions() -> Graph:
    """Returns the files that the headline depends on, each with those that it imports from."""
    graph: Graph = {}
    open_files = [ROOT]
    while open_files:
        path = open_files.pop()
        if path not in graph:
            graph[path] = uses_of(path)
            open_files += graph[path]
    return graph


def crate_of(path: str) -> str:
    """Returns the crate of a file."""
    return path.split("/")[1]


def lines_of(path: str) -> int:
    """Returns how many lines of a file must be read."""
    return sum(bool(line.strip()) and not line.startswith("use ") for line in text_of(path).split("\n"))


def below(name: str, graph: Graph) -> set[str]:
    """Returns all crates that the definitions of a crate depend on, directly or through others."""
    found = set(graph[name])
    for other in graph[name]:
        found |= below(other, graph)
    return found


def table_of_definitions() -> str:
    """Returns the table of the definitions that the headline depends on."""
    files = definitions()
    order = layers(files)
    found: dict[str, list[str]] = {}
    for path in sorted(files, key=lambda path: (order[path], path)):
        found.setdefault(crate_of(path), []).append(path)
    graph = {name: sorted({crate_of(other) for path in found[name] for other in files[path]} - {name}) for name in found}
    heights = layers(graph)
    rows = ["| Layer | Crate | Files in `specs/`, in reading order | Lines | Minutes | Rests on |", "|---|---|---|---|---|---|"]
    total = 0
    for name in sorted(found, key=lambda name: (-heights[name], name)):
        lines = sum(map(lines_of, found[name]))
        total += lines
        direct = [other for other in graph[name] if not any(other in below(third, graph) for third in graph[name])]
        names = ", ".join(os.path.basename(path).removesuffix(".antt") for path in found[name])
        minutes = -(-lines // LINES_A_MINUTE)
        rest = ", ".join(other.removeprefix("h41_") for other in direct)
        rows.append(f"| {heights[name]} | [{name}](../crates/{name}/README.md) | {names} | {lines} | {minutes} | {rest} |")
    hours = total / LINES_A_MINUTE / 60
    rows.append(f"| | {len(found)} crates | {len(files)} files | {total:,} | about {hours:.0f} hours | |")
    return "\n".join(rows) + "\n"


MADE = {"crates": picture_of_crates, "definitions": table_of_definitions}


def written(name: str, text: str) -> Optional[str]:
    """Returns a document with the picture or table inserted; None if the document has no place for it."""
    place = re.compile(rf"(<!-- tools/layers {name} -->\n).*?(<!-- end -->)", re.S)
    return place.sub(lambda found: f"{found[1]}\n{MADE[name]()}\n{found[2]}", text) if place.search(text) else None


def main(words: list[str]) -> int:
    """Prints the picture or the table, or writes both into the documents. Returns the status."""
    if words in (["--help"], ["-h"]):
        print(__doc__.strip())
        return 0
    if words == ["--write"]:
        for name, path in DOCUMENTS.items():
            text = written(name, text_of(path))
            if text is None:
                print(f"layers: {path} has no line `<!-- tools/layers {name} -->` with a line `<!-- end -->` after it: restore both",
                      file=sys.stderr)
                return 1
            with open(f"{TOP}/{path}", "w", encoding="utf-8") as file:
                file.write(text)
        return 0
    if len(words) != 1 or words[0] not in MADE:
        found = f"'{' '.join(words)}'" if words else "nothing"
        print(f"layers: found {found}, expected crates, definitions or --write; see --help", file=sys.stderr)
        return 2
    sys.stdout.write(MADE[words[0]]())
    return 0
