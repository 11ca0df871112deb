"""What the scripts of .ci/ share: they count rows and print those that fail, run programs, and read and write files.

A script that imports this module can import the modules of tools/ and benchmarks/ after it."""
from __future__ import annotations

import importlib.machinery
import importlib.util
import os
import subprocess
import sys
import threading
from collections.abc import Callable, Iterable, Mapping, Sequence
from concurrent.futures import Future, ThreadPoolExecutor
from typing import Any, Optional, TypeVar, Union

sys.dont_write_bytecode = True

TOP = os.path.realpath(os.path.join(os.path.dirname(os.path.realpath(__file__)), ".."))
BENCH = f"{TOP}/bench"
CORES = len(os.sched_getaffinity(0))

# How many characters of a reason are printed, and how many reasons `closing_of` prints.
LONGEST, MOST = 1500, 40

sys.path[:0] = [f"{TOP}/tools", f"{TOP}/benchmarks"]

Ran = subprocess.CompletedProcess[bytes]
Data = Union[bytes, str]
Some = TypeVar("Some")

counts = {True: 0, False: 0}
lock = threading.Lock()


# Rows.

def judge(good: object, name: str, why: object = "") -> None:
    """Counts a row. If it is not good, prints its name and why it failed. Several threads may do this at the same time."""
    with lock:
        counts[bool(good)] += 1
    if not good:
        reason = str(why)[:LONGEST]
        print(f"{name} FAILED: {reason}" if reason else f"{name} FAILED", flush=True)


def closing(*needed: object) -> int:
    """Prints the closing line, which counts the rows. Returns the status: 1 if a row has failed or something that is needed is empty."""
    print(f"{counts[True]} passed, {counts[False]} failed")
    return int(counts[False] != 0 or not all(needed))


def closing_of(reasons: Sequence[Optional[str]]) -> int:
    """Prints the first reasons why rows failed, and the closing line. A row without a reason has passed. Returns the status: 1 if a row
    has failed or there are no rows."""
    failed = [reason for reason in reasons if reason]
    print(*failed[:MOST], sep="\n", end="\n" if failed else "")
    if len(failed) > MOST:
        print(f"and {len(failed) - MOST} more")
    print(f"{len(reasons) - len(failed)} passed, {len(failed)} failed")
    return int(bool(failed) or not reasons)


class Jobs:
    """Rows that are tried at the same time, as many as there are cores."""

    def __init__(self) -> None:
        """Begins without rows."""
        self.pool = ThreadPoolExecutor(CORES)
        self.going: list[Future[None]] = []

    def row(self, tried: Callable[..., None]) -> Callable[..., None]:
        """Decorates a function that tries a row: a call only begins it."""
        def begun(*words: Any, **more: Any) -> None:
            """Begins a row."""
            self.going.append(self.pool.submit(tried, *words, **more))
        return begun

    def end(self) -> None:
        """Waits for the rows that have begun. If one of them raised an exception, raises it."""
        for job in self.going:
            job.result()


# Programs.

def build() -> None:
    """Builds the program if necessary, before rows start it. If that fails, ends the script with the status of the build."""
    status = subprocess.run([BENCH, "prove"], stdin=subprocess.DEVNULL, stdout=subprocess.DEVNULL, check=False).returncode
    if status != 0:
        sys.exit(status)


def judged(*parts: Callable[[], object], jobs: Optional[Jobs] = None) -> int:
    """Builds the program, tries the parts of a script in turn, and waits for the rows that they have begun as jobs. Prints the closing line,
    and returns the status."""
    build()
    for part in parts:
        part()
    if jobs:
        jobs.end()
    return closing()


def run(words: Sequence[str], room: Optional[str] = None, given: Optional[Data] = None, env: Optional[Mapping[str, str]] = None) -> Ran:
    """Runs a program in a folder, with this standard input; without one, it is empty. Returns the status and both outputs."""
    data = given.encode() if isinstance(given, str) else given or b""
    return subprocess.run(words, cwd=room, input=data, env=env, capture_output=True, check=False)


def tool(name: str, words: Iterable[str], room: Optional[str] = None, given: Optional[Data] = None) -> Ran:
    """Runs a tool of tools/, as `run` does."""
    return run([f"{TOP}/tools/{name}", *words], room, given)


def both(words: Sequence[str], room: Optional[str] = None, given: Data = b"") -> tuple[int, list[str]]:
    """Runs a program. Returns its status, and the lines of both outputs as they were written."""
    data = given.encode() if isinstance(given, str) else given
    ran = subprocess.run(words, cwd=room, input=data, stdout=subprocess.PIPE, stderr=subprocess.STDOUT, check=False)
    return ran.returncode, ran.stdout.decode().splitlines()


def output_of(deck: Data, *words: str) -> list[str]:
    """Returns the lines that the bench prints for a deck, on standard output, with further words such as an option."""
    return run([BENCH, "run", *words, "-"], given=deck).stdout.decode().splitlines()


def script(path: str) -> Any:
    """Returns the module that a script without an ending is, without its main part. The path begins at the top of the repository."""
    loader = importlib.machinery.SourceFileLoader(os.path.basename(path).replace("-", "_"), f"{TOP}/{path}")
    module = importlib.util.module_from_spec(sure(importlib.util.spec_from_loader(loader.name, loader)))
    loader.exec_module(module)
    return module


# Files.

def put(path: str, data: Data) -> None:
    """Writes a file. Its folder is made if it is not there."""
    os.makedirs(os.path.dirname(path) or ".", exist_ok=True)
    with open(path, "wb") as file:
        file.write(data if isinstance(data, bytes) else data.encode())


def fill(room: str, files: Mapping[str, Data]) -> None:
    """Writes files into a folder."""
    for name, data in files.items():
        put(f"{room}/{name}", data)


def read(path: str) -> bytes:
    """Returns the bytes of a file. A relative path begins at the top of the repository."""
    with open(os.path.join(TOP, path), "rb") as file:
        return file.read()


def text_of(path: str) -> str:
    """Returns the text of a file. A relative path begins at the top of the repository."""
    return read(path).decode()


def sure(found: Optional[Some]) -> Some:
    """Returns a value that must be there."""
    assert found is not None
    return found
