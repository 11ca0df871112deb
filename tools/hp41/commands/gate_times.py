"""Measures how long the parts of a run of the test suite take for each crate, and writes a table for docs/PERFORMANCE.md.

usage: tools/gate-times OUT COMMAND [WORD..]   runs a command, for example `.ci/run` or `rt ci`
       tools/gate-times OUT --of PID           watches a run that has already started; processes that have ended are missed

Twice a second, the tool reads the processor time of each prover process of the run and of its children, so at most half a second
of each process is lost. The command line of a prover names its crate. A prover in a folder rt-edit-.. tries a mutant (a
deliberately wrong body), or proves the crate before its mutants are tried.

The table has a row for each crate and columns in seconds of processor time: for the proof, which includes the tests and the
program, and for the mutants. Below the table are the elapsed time of the run and the number of processors. The table is written
to OUT when the run has ended. The output of the command itself is not changed.

Status: that of the command, or 0 with --of. 2: the command line is wrong."""
from __future__ import annotations

import os
import re
import subprocess
import sys
import time
from typing import Callable, Iterator, Optional

from .. import TOP

TICK = os.sysconf("SC_CLK_TCK")
PAUSE = 0.5
PROOF, BODIES = "proof", "wrong bodies"


# A crate and what its prover does there; the jobs of provers with their processor times, and the elapsed time.
Job = tuple[str, str]
Measured = tuple[list[tuple[Job, float]], float]


class Process:
    """A process of /proc: its parent, its start time, and the processor time of the process and of its children that have ended."""

    def __init__(self, number: int) -> None:
        """Reads a process by its number."""
        with open(f"/proc/{number}/stat", encoding="utf-8", errors="replace") as file:
            words = file.read().rpartition(")")[2].split()
        self.number, self.parent, self.begun = number, int(words[1]), int(words[19])
        self.taken = sum(int(word) for word in words[11:15]) / TICK


def processes() -> dict[int, Process]:
    """Returns all processes by number."""
    found = {}
    for name in os.listdir("/proc"):
        if name.isdigit():
            try:
                found[int(name)] = Process(int(name))
            except (OSError, IndexError, ValueError):
                pass
    return found


def below(top: int, found: dict[int, Process]) -> list[Process]:
    """Returns all descendants of a process."""
    children: dict[int, list[Process]] = {}
    for process in found.values():
        children.setdefault(process.parent, []).append(process)
    reached, rest = [], [top]
    while rest:
        for process in children.get(rest.pop(), []):
            reached.append(process)
            rest.append(process.number)
    return reached


def job_of(number: int) -> Optional[Job]:
    """Returns the crate of a prover process and what the prover does there; None for other processes."""
    try:
        with open(f"/proc/{number}/cmdline", "rb") as file:
            words = file.read().decode(errors="replace").split("\0")
        folder = os.readlink(f"/proc/{number}/cwd")
    except OSError:
        return None
    if os.path.basename(words[0]) != "rattle" or "--crate-name" not in words:
        return None
    return words[words.index("--crate-name") + 1], BODIES if re.search(r"/rt-edit-[^/]*$", folder) else PROOF


def watch(top: int, is_over: Callable[[], bool]) -> Measured:
    """Watches a run until `is_over`. Returns the job and the processor time of each prover process, and the elapsed time."""
    seen: dict[tuple[int, int], tuple[Job, float]] = {}
    began = time.monotonic()
    while not is_over():
        found = processes()
        jobs = {it.number: job_of(it.number) for it in below(top, found)}
        for number, job in jobs.items():
            # A copy that the prover forks is counted as part of it.
            if job and not jobs.get(found[number].parent):
                taken = found[number].taken + sum(it.taken for it in below(number, found))
                _, most = seen.get((number, found[number].begun), (job, 0))
                seen[number, found[number].begun] = job, max(most, taken)
        time.sleep(PAUSE)
    return list(seen.values()), time.monotonic() - began


def crates() -> list[str]:
    """Returns the crates in the order of crates.txt."""
    with open(f"{TOP}/crates.txt", encoding="utf-8") as file:
        return [line.split(":")[0].split()[0] for line in file if re.match(r"[a-z]", line)]


def table(seen: list[tuple[Job, float]], took: float) -> Iterator[str]:
    """Yields the lines of the table."""
    yield "    crate            proved  edits"
    sums = dict.fromkeys((PROOF, BODIES), 0.0)
    for crate in crates():
        taken = {kind: sum(it[1] for it in seen if it[0] == (crate, kind)) for kind in sums}
        sums = {kind: sums[kind] + taken[kind] for kind in sums}
        yield row(crate, taken)
    yield row("all", sums)
    yield ""
    yield f"The run took {took:.0f} seconds on {os.cpu_count()} processors."


def row(name: str, taken: dict[str, float]) -> str:
    """Returns a row of the table."""
    return f"    {name:<15} {taken[PROOF]:7.0f} {taken[BODIES]:6.0f}"


def run(words: list[str]) -> tuple[int, Measured]:
    """Runs a command. Returns its status and the measured times."""
    with subprocess.Popen(words) as begun:
        kept = watch(begun.pid, lambda: begun.poll() is not None)
    return begun.returncode, kept


def main(words: list[str]) -> int:
    """Measures a run, and writes the table. Returns the status."""
    if words in (["-h"], ["--help"]):
        print(__doc__.strip())
        return 0
    if len(words) < 2 or words[0].startswith("-") or (words[1] == "--of" and not (len(words) == 3 and words[2].isdigit())):
        found = f"'{' '.join(words)}'" if words else "nothing"
        print(f"gate-times: found {found}, expected OUT and a command, or OUT --of PID; see --help", file=sys.stderr)
        return 2
    if words[1] == "--of":
        status, kept = 0, watch(int(words[2]), lambda: not os.path.exists(f"/proc/{words[2]}"))
    else:
        status, kept = run(words[1:])
    with open(words[0], "w", encoding="utf-8") as file:
        file.write("\n".join(table(*kept)) + "\n")
    return status
