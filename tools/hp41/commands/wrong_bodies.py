"""Tries the mutants that the test suite omits, in crates/NAME/more-must-fail/: the prover must refuse each of them.

usage: tools/wrong-bodies [--texts] [NAME..]

A mutant is a deliberately wrong body of a function. NAME is a crate; without NAME, all crates with such mutants are tried. A mutant
is an edit, in the format of must-fail/: pairs of lines "old: TEXT" and "new: TEXT" after a line "file: PATH" of the crate. Each
old text must occur exactly once in the file. `rt must-fail` tries the mutants in a copy of the repository: the first mutant of a
crate takes as long as its proof, each further one about half a minute. Before a release all of them must be refused, as well as
those that the test suite tries.

  --texts   only checks that each old text occurs exactly once

Status 0: all mutants are refused, or with --texts all old texts occur once. 1: a mutant is not refused, or an old text does not
occur once. 2: the command line is wrong. 70: rt is not on PATH."""
import glob
import os
import shutil
import subprocess
import sys
import tempfile
from typing import Iterator

from .. import TOP

FOLDER = "more-must-fail"


def edits_of(crate: str) -> list[str]:
    """Returns the files of the mutants of a crate, sorted by name."""
    return sorted(glob.glob(f"{TOP}/crates/{crate}/{FOLDER}/*.edit"))


def old_texts(edit: str) -> list[tuple[str, str]]:
    """Returns the texts that a mutant replaces, each with its file."""
    path, texts = "", []
    with open(edit, encoding="utf-8") as file:
        for line in file:
            word, _, rest = line.rstrip("\n").partition(": ")
            if word == "file":
                path = rest
            elif word == "old":
                texts.append((path, rest))
    return texts or [(path, "")]


def misplaced(crate: str) -> Iterator[str]:
    """Yields the errors in the old texts of a crate's mutants."""
    for edit in edits_of(crate):
        for path, text in old_texts(edit):
            try:
                with open(f"{TOP}/crates/{crate}/{path}", encoding="utf-8") as file:
                    source = file.read()
            except OSError as error:
                yield f"wrong-bodies: {crate}/{os.path.basename(edit)}: {path}: {error.strerror}"
                continue
            if not text or source.count(text) != 1:
                count = source.count(text) if text else 0
                yield f"wrong-bodies: {crate}/{os.path.basename(edit)}: `{text}`: found {count} times in {path}, expected once"


def try_edits(crates: list[str]) -> int:
    """Tries the mutants of some crates in a copy. Returns the status."""
    with tempfile.TemporaryDirectory(prefix="wrong-bodies-") as room:
        copy = f"{room}/top"
        shutil.copytree(TOP, copy, symlinks=True, ignore=shutil.ignore_patterns(".git"))
        for crate in crates:
            wanted = f"{copy}/crates/{crate}"
            shutil.rmtree(f"{wanted}/must-fail", ignore_errors=True)
            os.rename(f"{wanted}/{FOLDER}", f"{wanted}/must-fail")
        return min(1, subprocess.run(["rt", "must-fail", *crates], cwd=copy, check=False).returncode)


def main(words: list[str]) -> int:
    """Tries the mutants. Returns the status."""
    if words in (["-h"], ["--help"]):
        print(__doc__.strip())
        return 0
    only_texts = words[:1] == ["--texts"]
    names = words[1:] if only_texts else words
    known = sorted(os.listdir(f"{TOP}/crates"))
    strange = [name for name in names if name not in known]
    if strange:
        print(f"wrong-bodies: unknown crate '{strange[0]}': expected names of folders in crates/", file=sys.stderr)
        return 2
    crates = [name for name in names or known if edits_of(name)]
    wrong = [line for crate in crates for line in misplaced(crate)]
    for line in wrong:
        print(line)
    if wrong or only_texts or not crates:
        return 1 if wrong else 0
    if not shutil.which("rt"):
        print("wrong-bodies: rt, the command of the Rattle kit, is not on PATH: install the kit, see README.md", file=sys.stderr)
        return 70
    return try_edits(crates)
