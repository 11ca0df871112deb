"""The instructions of a source or a project, as the bench lists them, with the contracts of its labels."""
from __future__ import annotations

import subprocess
from collections import Counter
from dataclasses import replace
from typing import Protocol

from .claimreading import check_places, contract_before
from .claims import Named, Wrong
from .decks import BENCH, NO_ANSWER, Failure
from .codes import ADDRESSES, Bank, Code, Instruction, NotProved, Result
from .executing import Execution
from .linking import Linked
from .sources import Assembled

# Instructions of two words.
LONG = ("LDI ", "?NC XQ ", "?C XQ ", "?NC GO ", "?C GO ")


class Report(Protocol):
    """What takes the lines about functions that are not proved."""

    def bad(self, line: int, claim: str, text: str) -> None:
        """Takes a line."""


def listed(words: list[int]) -> list[str]:
    """Returns the text of each instruction of some words."""
    given = "".join(f"{word:03X}\n" for word in words)
    ran = subprocess.run([BENCH, "dis", "-"], input=given.encode(), stdout=subprocess.PIPE, check=False)
    if ran.returncode == NO_ANSWER:
        raise Failure("./bench gave no answer: see its message above", NO_ANSWER)
    return [" ".join(line.split()) for line in ran.stdout.decode().splitlines()]


def add_source(code: Code, source: Assembled) -> None:
    """Adds the instructions of a source alone, and the contracts of its labels."""
    add(code, source, "", {label: label for label in source.labels})
    for contract in code.contracts.values():
        for claim in contract.ensures:
            if isinstance(claim, Named) and claim.name == "BANK":
                raise NotProved(claim.line, f"`{claim.text}`: a source alone has no banks, expected a project file of tools/module")
    check_names(code, source.whole.path)


def add_project(code: Code, linked: Linked) -> None:
    """Adds the instructions of the banks of a project, and the contracts of their labels. A label that occurs in several banks has the
    name of its bank before it."""
    linked.assemble()
    code.free = linked.project.free_page()
    times = Counter(name for unit in linked.units for name in unit.labels)
    for unit in linked.units:
        add(code, unit, unit.name, {label: label if times[label] == 1 else f"{unit.name}_{label}" for label in unit.labels})
    for name in [*code.contracts]:
        page = code.labels[name] % ADDRESSES >> 12
        contract = code.contracts[name]
        contract.ensures = [replace(claim, page=page) if isinstance(claim, Named) and claim.name == "BANK" else claim
                            for claim in contract.ensures]
    check_names(code, linked.project.path)


def own_size(source: Assembled) -> int:
    """Returns the number of words before the end of the page that a description adds."""
    fills = source.whole.fills
    return source.places[min(fills)] if fills else source.size


def add(code: Code, source: Assembled, name: str, keys: dict[str, str]) -> None:
    """Adds the instructions and contracts of a bank. `keys` has the names of its labels in the code. The lines of each source are counted
    from those before it."""
    page, number, before = int(source.page, 16), source.number, len(code.origins)
    size = own_size(source)
    code.banks.append(Bank(name, page, number, source.words, size))
    first = (page << 12) + (number - 1) * ADDRESSES
    lines: dict[int, int] = {}
    for at, (begin, end) in enumerate(zip(source.places, source.places[1:])):
        lines.update((place, before + at + 1) for place in range(begin, end))
    place = 0
    for text in listed(source.words[:size]):
        length = 2 if text.startswith(LONG) else 1
        code.instructions[first + place] = Instruction(place, tuple(source.words[place:place + length]), text, lines.get(place, 0))
        place += length
    # An empty line separates sources, so that no comment belongs to a label of the next one.
    code.origins += [*source.whole.origins[:len(source.texts)], (source.whole.path, 0)]
    texts = [*("" for _ in range(before)), *(text.decode(errors="replace") for text in source.texts)]
    for at, line in enumerate(source.lines):
        if line.code:
            code.texts[before + at + 1] = line.instruction()
        key = keys.get(line.label or "", "")
        if not line.label or not key or key in code.labels:
            continue
        code.labels[key] = first + source.labels[line.label]
        code.names[key] = f"{name}.{line.label}" if key != line.label else key
        contract = contract_before(texts, before + at)
        if contract:
            code.contracts[key], code.lines[key] = contract, before + at + 1
    check_places(texts, {before + at for at, line in enumerate(source.lines) if line.label})


def check_names(code: Code, path: str) -> None:
    """Checks that there are contracts, and that their labels differ in more than upper and lower case."""
    if not code.contracts:
        raise Failure(f"{path}: no label has claims: write `; requires` and `; ensures` before a label, see docs/PROVE-YOUR-MODULE.md")
    names: dict[str, str] = {}
    for label, contract in code.contracts.items():
        other = names.setdefault(label.lower(), label)
        if other != label:
            place = code.origins[code.lines[other] - 1]
            where = f"line {place[1]}" if not code.is_project else f"{place[0]}:{place[1]}"
            raise Wrong(contract.line, 1, f"found the label {label}, expected another name, because {other} in {where} has claims too, and "
                                          "they differ only in upper and lower case")


def in_order(code: Code, report: Report, labels: set[str]) -> list[Result]:
    """Returns the results of executing functions, each after those that it calls. A function that cannot be executed is reported."""
    found: dict[str, Result] = {}
    failed: set[str] = set()
    under_way: list[str] = []

    def execute(label: str) -> Result | None:
        """Returns the result of a function, which is executed if it was not yet; None if this is not possible."""
        if label in found or label in failed or label not in labels:
            return found.get(label)
        under_way.append(label)
        try:
            found[label] = Execution(code, label, execute, under_way).result()
        except NotProved as why:
            failed.add(label)
            report.bad(why.line, "", f"not proved: {why}")
        under_way.pop()
        return found.get(label)

    for label, contract in code.contracts.items():
        if contract.is_function:
            execute(label)
    return list(found.values())
