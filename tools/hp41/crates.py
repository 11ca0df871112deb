"""The crates of the program and the crates of laws: their sources, and how long their proofs take."""
from __future__ import annotations

import functools
import hashlib
import os
import subprocess
from typing import Iterator, Optional

from . import TOP

NAME = "h41_bench"

# The prefix of the names of test crates.
TESTS = "h41_tests"

# The folders of a crate, and the suffixes of its files, that rt reads.
PARTS, ENDINGS = ("src", "specs", "proofs"), (".rt", ".antt")


class Crate:
    """A crate of the repository.

    `on` are the libraries that its line in crates.txt lists, including those of the kit. `below` are all crates that it depends on, each
    after those that it depends on itself."""

    def __init__(self, name: str, below: list[Crate], on: list[str]) -> None:
        """Counts the lines of the sources, and estimates the time of the proof."""
        self.name, self.below, self.on, self.folder = name, below, on, f"{TOP}/crates/{name}"
        self.lines = sum(text.count(b"\n") for path, text in self.texts() if path.endswith(".rt"))
        # The time in seconds that the proof is likely to take on one core: the measured time, or else an estimate from the lines of the
        # crate and of the crates below it.
        self.work = seconds().get(name) or 12.8 + 0.086 * self.lines + 0.0036 * sum(crate.lines for crate in below)
        # The work of the longest chain of crates that starts with this crate and ends with one on which no other depends.
        self.chain = self.work

    def texts(self) -> Iterator[tuple[str, bytes]]:
        """Yields the path from the top of the repository and the bytes of each source. Backup files of editors are skipped."""
        paths = [f"{at}/{name}" for part in PARTS for at, _, names in os.walk(f"{self.folder}/{part}")
                 for name in names if name.endswith(ENDINGS) and not name.startswith(".")]
        for path in sorted(paths):
            with open(path, "rb") as file:
                yield os.path.relpath(path, TOP), file.read()

    def sums(self) -> dict[str, str]:
        """Returns the SHA-256 checksums of the sources, by path."""
        return {path: hashlib.sha256(text).hexdigest() for path, text in self.texts()}

    def stamp(self) -> str:
        """Returns a checksum of everything that the proof depends on."""
        return hashlib.sha256(repr([kit(), *(crate.sums() for crate in [*self.below, self])]).encode()).hexdigest()


@functools.lru_cache(maxsize=None)
def seconds() -> dict[str, int]:
    """Returns the measured proof times in seconds, by crate."""
    with open(f"{TOP}/tools/proof-seconds", encoding="utf-8") as file:
        return {name: int(taken) for name, taken in (line.split() for line in file if not line.startswith("#"))}


@functools.lru_cache(maxsize=None)
def kit() -> bytes:
    """Returns the version line of the kit."""
    return subprocess.run(["rt", "version"], stdin=subprocess.DEVNULL, stdout=subprocess.PIPE).stdout


def crates_of_program(laws: bool = False) -> list[Crate]:
    """Returns the crates that the program depends on and the program's own crate, each after the crates that it depends on. With `laws`,
    the other crates follow, except for test crates."""
    rows: dict[str, list[str]] = {}
    crates: dict[str, Crate] = {}
    with open(f"{TOP}/crates.txt", encoding="utf-8") as file:
        for line in file:
            row = line.partition("#")[0].strip()
            if ":" in row:
                rows[row.split(":")[0].split()[0]] = row.partition(":")[2].split()

    def add(name: str) -> None:
        """Adds a crate after the crates that it depends on."""
        if name in rows and name not in crates:
            for other in rows[name]:
                add(other)
            below = [crate for other in rows[name] if other in crates for crate in [*crates[other].below, crates[other]]]
            crates[name] = Crate(name, list(dict.fromkeys(below)), rows[name])

    add(NAME)
    for name in filter(lambda name: laws and not name.startswith(TESTS), rows):
        add(name)
    for crate in reversed(crates.values()):
        for other in crate.below:
            other.chain = max(other.chain, other.work + crate.chain)
    return list(crates.values())


def commit() -> Optional[str]:
    """Returns the commit that is checked out, and whether its sources have been changed; None if git does not know."""
    def git(*words: str) -> str:
        """Returns what git prints for some words; an empty text if it fails."""
        ran = subprocess.run(["git", "-C", TOP, *words], stdin=subprocess.DEVNULL, stdout=subprocess.PIPE, stderr=subprocess.DEVNULL)
        return ran.stdout.decode().strip() if ran.returncode == 0 else ""

    try:
        if not os.path.exists(f"{TOP}/.git"):
            return None
        found, changes = git("rev-parse", "HEAD"), git("status", "--porcelain", "--", "crates", "crates.txt")
    except OSError:
        return None
    return f"{found}{' with uncommitted changes' if changes else ''}" if found else None


class Record:
    """What a program was built from: a line with the commit, and the checksums of the program and of its sources in the format of
    sha256sum. The launcher compares them with the current files."""

    PATH = f"{TOP}/crates/{NAME}/out/sources"

    def __init__(self, crates: list[Crate]) -> None:
        """Reads the commit and the sources of crates."""
        self.commit, self.sums = commit(), {}
        with open(f"{TOP}/crates.txt", "rb") as file:
            self.sums["crates.txt"] = hashlib.sha256(file.read()).hexdigest()
        for crate in crates:
            self.sums.update(crate.sums())

    def write(self, program: str) -> None:
        """Writes the record for a program into the program's folder."""
        with open(program, "rb") as file:
            sums = {**self.sums, os.path.relpath(program, TOP): hashlib.sha256(file.read()).hexdigest()}
        new = f"{self.PATH}.{os.getpid()}"
        with open(new, "w", encoding="utf-8") as file:
            if self.commit:
                print(f"# proved and built from commit {self.commit}", file=file)
            print(*(f"{found}  {path}" for path, found in sorted(sums.items())), sep="\n", file=file)
        os.replace(new, self.PATH)
