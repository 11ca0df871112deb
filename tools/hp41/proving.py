"""Proves a crate of theorems about microcode with the prover of the kit, and finds the source line of what is not proved."""
from __future__ import annotations

import os
import re
import shutil
import subprocess
from typing import Mapping, NamedTuple, Protocol, Sequence

from . import TOP, progress
from .crates import NAME
from .decks import NO_ANSWER, Failure
from .statements import CRATE

# Where ./bench prove --all keeps the libraries, and the crates that a theorem can name.
LIBRARIES = f"{TOP}/crates/{NAME}/out/rlib"
USED = ("h41_digits", "h41_lines", "h41_fields", "h41_arith", "h41_words", "h41_dis", "h41_asm", "h41_decimal", "h41_ram", "h41_pages",
        "h41_nut", "h41_laws_words", "h41_reasoning")
# The same for theorems about programs, with the crates that these use.
USED_BY_PROGRAMS = ("h41_digits", "h41_lines", "h41_fields", "h41_arith", "h41_words", "h41_dis", "h41_asm", "h41_ends", "h41_codes",
                    "h41_text", "h41_keys", "h41_decimal", "h41_ram", "h41_show", "h41_pages", "h41_nut", "h41_program", "h41_walk",
                    "h41_labels", "h41_positions", "h41_numbers", "h41_plain_numbers", "h41_rows", "h41_focal", "h41_laws_words",
                    "h41_reasoning_lines")
ERROR = re.compile(r"\./(proofs/\S+|specs/\S+):(\d+):\d+: error: (.*)")
OF_LABEL = re.compile(r"(?:proofs|specs)/Of_(\w+)\.antt")
PROVED = "logic=proved "

# Where a file names another crate: a definition or a lemma, or a law.
OF_CRATE = re.compile(r"\bRattle\.(\w+)\.|^use (\w+)::", re.M)

# What the prover says of a proof that rests on another one that is not proved.
FOLLOWS = re.compile(r"declarations? that depends? on .* not checked")

# What the prover says of a claim that does not follow.
NO_DECISION = re.compile(r"`omega`: the goal does not follow from what it read")


class Proof(Protocol):
    """A proof that was written: for each line of its file its text, the source line to which it belongs, and the text of its claim.
    `uses` has the names of the theorems that it cites."""
    rows: list[tuple[str, int, str]]
    uses: list[str]


class Verdict(NamedTuple):
    """What the prover says: the names of the theorems that are proved, and for each claim that is not proved its source line, its text and
    the reason."""
    proved: set[str]
    faults: list[tuple[int, str, str]]
    text: str


def library(folder: str, name: str) -> str:
    """Returns the path of a library. `rt ci` makes it in the folder of its crate, which is used if the folder of ./bench prove lacks it."""
    path, of_rt = f"{os.path.abspath(folder)}/{name}.rlib", f"{TOP}/crates/{name}/out/rlib/{name}.rlib"
    return of_rt if folder == LIBRARIES and not os.path.isdir(path) and os.path.isdir(of_rt) else path


def missing(folder: str, used: tuple[str, ...] = USED) -> list[str]:
    """Returns the libraries that a folder lacks."""
    return [name for name in used if not os.path.isdir(library(folder, name))]


def check_libraries(folder: str, used: tuple[str, ...] = USED) -> None:
    """Raises Failure if a library is missing."""
    lacks = missing(folder, used)
    if lacks:
        raise Failure(f"{folder}: the library {lacks[0]}.rlib is missing: make it with ./bench prove --all, or "
                      "try the claims without a proof with --try", NO_ANSWER)


def kit() -> str:
    """Returns the folder of the kit."""
    rt = shutil.which("rt")
    if not rt:
        raise Failure("rt, the command of the Rattle kit, is not on PATH: install the kit, see README.md, or "
                      "try the claims without a proof with --try", NO_ANSWER)
    return os.path.dirname(os.path.dirname(os.path.realpath(rt)))


def named_in(crate: str) -> set[str]:
    """Returns the names of the crates that the files of a crate in a folder name."""
    found: set[str] = set()
    for within, _, names in os.walk(crate):
        for name in names:
            with open(os.path.join(within, name), encoding="utf-8") as file:
                found |= {one for pair in OF_CRATE.findall(file.read()) for one in pair}
    return found


def command(crate: str, folder: str, used: tuple[str, ...]) -> list[str]:
    """Returns the command that proves a crate, in its folder. The prover needs longer to start for each library that the crate names, and
    finds the libraries below these by itself."""
    top, named = kit(), named_in(crate)
    words = [f"{top}/bin/rattle", "check", "--crate-name", CRATE, "src/lib.rt"]
    paths = {name: library(folder, name) for name in used}
    for name, path in {"std": f"{top}/rlibs/std.rlib", **paths}.items():
        words += ["--extern", f"{name}={path}"] if name in named else []
    for within in dict.fromkeys([*(os.path.dirname(path) for path in paths.values()), f"{top}/rlibs"]):
        words += ["-L", f"dependency={within}"]
    words += ["--links", f"{CRATE}="]
    return [*words, "--antt-project", f"{top}/rattle/logic/antt-project.json", "--logic-built", f"{top}/logic_built"]


def prove(crate: str, libraries: str, proofs: Mapping[str, Proof], used: tuple[str, ...] = USED,
          reasons: Mapping[str, Sequence[str]] | None = None) -> Verdict:
    """Returns what the prover says of a crate in a folder. `reasons` has for each line of a proof why it may fail. The prover keeps memory
    that it may want again, which saves it time."""
    progress.show(f"proving {progress.counted(len(proofs), 'theorem')}")
    ran = subprocess.run(command(crate, libraries, used), cwd=crate, stdin=subprocess.DEVNULL, stdout=subprocess.PIPE,
                         stderr=subprocess.STDOUT, env={"MIMALLOC_PURGE_DELAY": "-1"} | os.environ, check=False)
    return verdict_of(ran.stdout.decode(errors="replace"), proofs, reasons)


def verdict_of(text: str, proofs: Mapping[str, Proof], reasons: Mapping[str, Sequence[str]] | None = None) -> Verdict:
    """Returns the verdict in the output of the prover."""
    lines = text.splitlines()
    is_judged = any(line.startswith("logic=") for line in lines)
    if not is_judged:
        last = next((line for line in reversed(lines) if line.strip()), "it printed nothing")
        raise Failure(f"the prover gave no verdict: {last}", NO_ANSWER)
    faults, wrong = [], set()
    for line in lines:
        found = ERROR.match(line)
        if not found:
            continue
        label = OF_LABEL.fullmatch(found[1])
        wrong |= {label[1] if label else ""}
        if FOLLOWS.search(found[3]):
            continue
        if found[1] in proofs and int(found[2]) <= len(proofs[found[1]].rows):
            at = int(found[2]) - 1
            _, source, claim = proofs[found[1]].rows[at]
            faults.append((source, claim, reason_of(found[3], (reasons or {}).get(found[1], [""] * (at + 1))[at])))
        else:
            faults.append((0, "", f"{found[1]}:{found[2]}: {found[3]}"))
    is_proved = any(line.startswith(PROVED) for line in lines)
    if not faults and not is_proved:
        faults.append((0, "", next((line for line in lines if "error" in line), next((line for line in lines if "not proved" in line),
                                                                                     "logic=not-proved"))))
    return Verdict(proved_of(proofs, wrong, is_proved), sorted(dict.fromkeys(faults), key=lambda fault: fault[0]), text)


def proved_of(proofs: Mapping[str, Proof], wrong: set[str], is_proved: bool) -> set[str]:
    """Returns the names of the theorems that are proved. If the crate is not, they are those whose files have no error, and which cite no
    other theorem; `wrong` has the names of those with errors, or an empty name if another file has one."""
    names = {found[1]: proof.uses for path, proof in proofs.items() if (found := OF_LABEL.fullmatch(path))}
    if is_proved and not wrong:
        return set(names)
    if not wrong or not wrong <= set(names):
        return set()
    while more := {name for name, uses in names.items() if name not in wrong and wrong & set(uses)}:
        wrong |= more
    return set(names) - wrong


def reason_of(message: str, why: str = "") -> str:
    """Returns the reason in a message of the prover, in words for a writer of modules. `why` says why the line may fail."""
    if NO_DECISION.search(message):
        return why or "it does not follow from what is known at the end of the function"
    return f"the prover says: {message}"
