"""Proves the crates that the program depends on, and builds the program.

usage: ./bench prove [--all | --check]

  (no word)  proves the crates of the program and builds it, so that every answer is one that its contracts permit
  --all      also proves the crates of laws, and so everything that docs/PROOFS.md cites, for example that each deck has exactly
             one text, and that each listing survives a round trip
  --check    proves nothing; reports whether the program was built from the current sources

`rt ci` proves the same crates and the test crates, checks texts by the rules of the kit, and tries mutants (deliberately wrong
bodies) and a second compiler.

The prover of the kit proves one crate at a time, in a copy of the sources. It uses only the statements of the crates below. The
crate with the longest chain of dependent crates has priority; others are proved on the remaining cores if there is enough memory.
The program takes 11 to 25 minutes on four idle cores, everything a sixth more. The proved libraries are kept in
crates/h41_bench/out/rlib, 1.7 GB for the program. They may be deleted. After an interrupt or an edit, the next call proves only
the remaining crates; a crate that was not finished starts again. For each crate a line on standard error gives the time since the
start and an estimate of the remaining time. The messages of the prover are in crates/h41_bench/out/build.log, and its last line for
each crate is in crates/h41_bench/out/verdicts.

If ./bench prove or `rt ci` has built the program from the current sources, it is not built again, and no crate is proved twice.
If `rt ci` has built it, --all still proves all crates itself.

Status 0: the program is proved and built; with --all the laws are proved too. 1: with --check, there is no such program. 2: the
command line is wrong. 70: the proof or the build has failed."""
from __future__ import annotations

import contextlib
import fcntl
import os
import re
import shutil
import signal
import subprocess
import sys
import time
from types import FrameType
from typing import Any, Callable, Iterator, NoReturn, Optional, TextIO, Union

from .. import TOP
from ..crates import NAME, PARTS, Crate, Record, crates_of_program

OUT = f"{TOP}/crates/{NAME}/out"
# (rt keeps its libraries in out/rlib; it reads other folders as sources.)
PROGRAM, LOG, COPY, LIBRARIES = f"{OUT}/{NAME}", f"{OUT}/build.log", f"{OUT}/proof", f"{OUT}/rlib"
# For each crate the checksum of what its proof depends on, and the last line of the prover. tools/release puts these lines into a
# release.
VERDICTS = f"{OUT}/verdicts"
FAILED = 70

# Files with the arguments, the input and the expected output of a test of the program.
RUN = "args", "stdin", "stdout"

# In MB: the disk space that a proof needs temporarily, and the space that all of them keep.
DISK, KEPT = 1_000, 1_700

# A crate is proved this much faster with a job for each core, but uses a quarter more processor time. So each crate gets one job, until
# too few crates are left to use all cores.
SPEED, FEW = 2.2, 10

# How many crates are proved at a time on idle cores, and the memory in bytes that each one needs.
AT_A_TIME, MEMORY = 4, 4_000_000_000

# How much the priority of the other crates is lowered in favour of the crate with the longest chain.
NICE = 10

# Lets the prover keep freed memory, which saves five percent of its time with one job.
KEEPING = {"MIMALLOC_PURGE_DELAY": "-1"}

# The last line of the prover for a proved crate, and the words that it may have. Any other word names something that is not proved, or
# that lets a call break its contract, for example by aborting.
PROVED = re.compile(r"^logic=proved (.*)\Z", re.M)
WORDS = {"functions", "axioms", "target", "cpu", "sum", "native", "logic-built", "libraries-built", "statements"}


class Failure(Exception):
    """The reason why the program is not proved and built."""


class Interrupted(Exception):
    """A signal ends the call."""


def say(text: object) -> None:
    """Prints a message on standard error."""
    print(f"bench: {text}", file=sys.stderr, flush=True)


def first_difference(wanted: bytes, output: bytes) -> str:
    """Returns the first line in which the output of the program's test is not the wanted one: its place, and what is in it."""
    # Only an error needs this module, which takes time to load.
    from ..decks import differences, quoted
    number, expected, found = next(differences(wanted, output))
    return f"crates/{NAME}/stdout:{number}: expected {quoted(expected)}, found {quoted(found)}"


def clock(seconds: float) -> str:
    """Returns a time as minutes and seconds."""
    return f"{int(seconds) // 60}:{int(seconds) % 60:02}"


def minutes(seconds: float) -> str:
    """Returns a time in minutes, in words."""
    whole = max(1, round(seconds / 60))
    return f"{whole} minute{'s' if whole > 1 else ''}"


def cores() -> int:
    """Returns the number of cores that may be used, limited by the control group."""
    found = len(os.sched_getaffinity(0))
    with contextlib.suppress(OSError, ValueError), open("/sys/fs/cgroup/cpu.max", encoding="ascii") as file:
        time_of_all, time = map(int, file.read().split())
        found = max(1, min(found, time_of_all // time))
    return found


def keep(file: TextIO, flag: int = 0) -> None:
    """Locks a file against other calls. Some file systems have no locks."""
    try:
        fcntl.flock(file, fcntl.LOCK_EX | flag)
    except BlockingIOError:
        raise
    except OSError:
        pass


class Kit:
    """The prover of the kit whose rt is on PATH, and the libraries of the kit."""

    def __init__(self) -> None:
        """Finds the kit. Raises Failure if rt is not on PATH."""
        rt = shutil.which("rt")
        if not rt:
            raise Failure("rt, the command of the Rattle kit, is not on PATH: install the kit, see README.md")
        self.top = os.path.dirname(os.path.dirname(os.path.realpath(rt)))

    def proving(self, crate: Crate, jobs: int, made: str) -> list[str]:
        """Returns the command that proves a crate, using the statements of the crates below, and writes its library, or the program
        before linking."""
        own = {other.name for other in crate.below}
        words = [f"{self.top}/bin/rattle", "build", "--crate-name", crate.name, f"src/{'main' if crate.name == NAME else 'lib'}.rt"]
        for name in ["std", *crate.on]:
            words += ["--extern", f"{name}={library(name) if name in own else f'{self.top}/rlibs/{name}.rlib'}"]
        words += ["-L", f"dependency={LIBRARIES}", "-L", f"dependency={self.top}/rlibs", "--links", f"{crate.name}="]
        words += ["--antt-project", f"{self.top}/rattle/logic/antt-project.json", "--logic-built", f"{self.top}/logic_built"]
        if crate.name == NAME:
            words += ["--toolchain", f"{self.top}/toolchain", "--backend", "llvm"]
        else:
            words += ["--statements"]
        return [*words, "--jobs", str(jobs), "-o", made]

    def linking(self, made: str, program: str) -> list[str]:
        """Returns the command that links the program."""
        words = [f"{self.top}/bin/rattle-link", "--target", "x86_64-unknown-linux-gnu", "--toolchain", f"{self.top}/toolchain"]
        return [*words, "-o", program, made, f"{self.top}/c/libos_c.a", f"{self.top}/c/liblibc_c.a"]


def library(name: str) -> str:
    """Returns the path of the library of a crate."""
    return f"{LIBRARIES}/{name}.rlib"


def stamp_of(name: str) -> str:
    """Returns the path of the file that records what a library was made from."""
    return f"{LIBRARIES}/{name}.proved"


def lines_of_verdicts() -> list[str]:
    """Returns the stored lines of the prover."""
    if not os.path.exists(VERDICTS):
        return []
    with open(VERDICTS, encoding="utf-8") as file:
        return file.readlines()


def keep_verdict(name: str, stamp: str, verdict: str) -> None:
    """Stores the last line of the prover for a crate, in place of an earlier one."""
    kept = [line for line in lines_of_verdicts() if line.split(" ", 1)[0] != name]
    with open(f"{VERDICTS}.new", "w", encoding="utf-8") as file:
        file.writelines([*kept, f"{name} {stamp} {verdict}\n"])
    os.replace(f"{VERDICTS}.new", VERDICTS)


def store_verdicts(path: str) -> None:
    """Stores the last lines of the prover that `rt ci` has printed into a file while it proved the current sources."""
    with open(path, encoding="utf-8", errors="replace") as log:
        parts = re.split(r"^== ", log.read(), flags=re.M)
    # (the part of a crate begins with its name; that of its tests begins with the name and a colon)
    lines = {part.partition("\n")[0]: line for part in parts for line in re.findall(r"^logic=proved .*", part, re.M)[-1:]}
    for crate in crates_of_program(laws=True):
        if crate.name in lines:
            keep_verdict(crate.name, crate.stamp(), lines[crate.name])


def copy_sources(crates: list[Crate]) -> None:
    """Copies the sources of crates, so that edits during the proof have no effect on it."""
    shutil.rmtree(COPY, ignore_errors=True)
    for crate in crates:
        for part in filter(lambda part: os.path.isdir(f"{crate.folder}/{part}"), PARTS):
            shutil.copytree(f"{crate.folder}/{part}", f"{COPY}/{crate.name}/{part}")
    for file in filter(lambda file: os.path.isfile(f"{TOP}/crates/{NAME}/{file}"), RUN):
        shutil.copy(f"{TOP}/crates/{NAME}/{file}", f"{COPY}/{NAME}")


def at_a_time() -> int:
    """Returns how many crates can be proved at a time, limited by cores and memory."""
    with open("/proc/meminfo", encoding="ascii") as file:
        free = next(int(line.split()[1]) for line in file if line.startswith("MemAvailable:")) << 10
    return max(1, min(AT_A_TIME, cores(), free // MEMORY))


class Call:
    """A call of the prover for one crate. If there are not enough cores, other calls have a lower priority than the first."""

    def __init__(self, kit: Kit, crate: Crate, jobs: int, lock: TextIO) -> None:
        """Starts the prover."""
        self.crate, self.jobs, self.nice, self.began = crate, jobs, 0, time.monotonic()
        self.folder = f"{COPY}/{crate.name}"
        self.made = f"{self.folder}/made"
        with open(f"{self.folder}/log", "w", encoding="utf-8") as log:
            # If this process is killed, the proof keeps the lock until it ends.
            self.prover = subprocess.Popen(kit.proving(crate, jobs, self.made), cwd=self.folder, stdin=subprocess.DEVNULL, stdout=log,
                                           stderr=log, start_new_session=True, pass_fds=[lock.fileno()],
                                           env=os.environ | (KEEPING if jobs == 1 else {}))

    def give_way(self, how_much: int) -> None:
        """Lowers the priority of all processes of the call. Kernels that schedule sessions need the priority of the session. Only some
        users may raise it again; for the others it stays low."""
        if self.nice == how_much:
            return
        self.nice = how_much
        with contextlib.suppress(OSError), open(f"/proc/{self.prover.pid}/autogroup", "w", encoding="ascii") as file:
            file.write(f"{how_much}\n")
        with contextlib.suppress(OSError):
            os.setpriority(os.PRIO_PGRP, self.prover.pid, how_much)

    def has_ended(self) -> bool:
        """Returns whether the prover has ended."""
        return self.prover.poll() is not None

    def has_proved(self) -> bool:
        """Returns whether the crate is proved, by the status and the last line of the prover."""
        found = PROVED.search(self.text().rstrip())
        return self.prover.returncode == 0 and found is not None and {word.partition("=")[0] for word in found[1].split()} <= WORDS

    def end(self) -> None:
        """Kills the prover."""
        with contextlib.suppress(ProcessLookupError):
            os.killpg(self.prover.pid, signal.SIGKILL)
        self.prover.wait()

    def verdict(self) -> str:
        """Returns the last line of the prover."""
        return self.text().rstrip().rpartition("\n")[2]

    def text(self) -> str:
        """Returns the output of the prover."""
        with open(f"{self.folder}/log", encoding="utf-8", errors="replace") as log:
            return log.read()

    def tell(self) -> None:
        """Appends the output of the prover to the log."""
        with open(LOG, "a", encoding="utf-8") as log:
            log.write(f"== {self.crate.name}, {time.monotonic() - self.began:.0f} seconds\n{self.text()}")


class Proof:
    """The proof of crates, and the build of the program if it is not built yet."""

    def __init__(self, kit: Kit, crates: list[Crate], lock: TextIO, is_built: bool) -> None:
        """Finds the crates that are left to prove."""
        self.kit, self.crates, self.lock, self.began = kit, {crate.name: crate for crate in crates}, lock, time.monotonic()
        self.stamps, self.at_a_time = {crate.name: crate.stamp() for crate in crates}, at_a_time()
        self.left: set[str] = set()
        for crate in crates:
            # The statements of a library are valid only together with those of the crates below.
            if crate.name == NAME:
                # With the laws, a program that `rt ci` has built is proved again, because no line of the prover is stored for it.
                is_left = not is_built or len(crates) > len(crates_of_program()) and not self.has_verdict(crate)
            else:
                is_left = not self.is_proved(crate) or any(other.name in self.left for other in crate.below)
            if is_left:
                self.left.add(crate.name)
        # The time in seconds that the whole proof was likely to take.
        self.likely = self.likely_left()

    def is_proved(self, crate: Crate) -> bool:
        """Returns whether an earlier call has proved a crate in its current state."""
        try:
            with open(stamp_of(crate.name), encoding="utf-8") as file:
                is_stamped = file.read() == self.stamps[crate.name]
            return is_stamped and os.path.isdir(library(crate.name)) and self.has_verdict(crate)
        except OSError:
            return False

    def has_verdict(self, crate: Crate) -> bool:
        """Returns whether the last line of the prover is stored for a crate in its current state."""
        return any(line.startswith(f"{crate.name} {self.stamps[crate.name]} ") for line in lines_of_verdicts())

    def share(self) -> float:
        """Returns the remaining work as a fraction of the work for the program."""
        return sum(self.crates[name].work for name in self.left) / sum(crate.work for crate in crates_of_program())

    def likely_left(self) -> float:
        """Returns how long the rest is likely to take on idle cores: the longest chain, or all the work divided by the cores."""
        left = [self.crates[name] for name in self.left]
        chain = max((crate.chain for crate in left), default=0) / (SPEED if cores() > 1 else 1)
        return max(chain, sum(crate.work for crate in left) / cores())

    def seconds_left(self) -> float:
        """Returns the same, corrected by the speed so far. Five minutes at the expected speed are added, so that the first few crates do
        not have too much weight."""
        left = self.likely_left()
        return left * (300 + time.monotonic() - self.began) / (300 + self.likely - left)

    def begin(self, calls: list[Call]) -> None:
        """Starts calls for what can be proved now: the crate with the longest chain always, others if there are cores."""
        going = {call.crate.name for call in calls}
        ready = [crate for crate in map(self.crates.__getitem__, self.left - going)
                 if not any(other.name in self.left for other in crate.below)]
        ready.sort(key=by_chain, reverse=True)
        longest = max((crate.chain for crate in [*ready, *(call.crate for call in calls)]), default=0)
        for crate in ready:
            if crate.chain == longest or len(calls) < self.at_a_time:
                is_of_few = len(self.left) - len(calls) <= FEW
                calls.append(Call(self.kit, crate, self.at_a_time if is_of_few else 1, self.lock))
        is_full = sum(call.jobs for call in calls) >= self.at_a_time
        for call in calls:
            call.give_way(NICE if is_full and call.crate.chain < longest else 0)

    def has_ended(self, call: Call) -> None:
        """Stores the result of a call, and reports its crate."""
        name = call.crate.name
        if not call.has_proved():
            raise Failure(f"{name} was not proved: status {call.prover.returncode} of the prover, `{call.verdict()[:200]}`: see {LOG}")
        if name == NAME:
            self.build(call)
        else:
            shutil.rmtree(library(name), ignore_errors=True)
            os.rename(call.made, library(name))
            with open(stamp_of(name), "w", encoding="utf-8") as file:
                file.write(self.stamps[name])
        keep_verdict(name, self.stamps[name], call.verdict())
        self.left.remove(name)
        left = f"; about {minutes(self.seconds_left())} left" if self.left else ""
        count = len(self.crates)
        say(f"{count - len(self.left)} of {count}, {name} ({clock(time.monotonic() - self.began)}{left})")

    def build(self, call: Call) -> None:
        """Links the program, and runs its test if there is one."""
        program, files = f"{call.folder}/{NAME}", {name: f"{call.folder}/{name}" for name in RUN}
        with open(LOG, "ab") as log:
            words = self.kit.linking(call.made, program)
            status = subprocess.run(words, cwd=call.folder, stdin=subprocess.DEVNULL, stdout=log, stderr=log).returncode
            if status != 0:
                raise Failure(f"the linker ended with status {status}: see the end of {LOG}")
        if os.path.isfile(files["stdout"]):
            with open(files["args"], encoding="utf-8") as args, open(files["stdin"], "rb") as given, open(files["stdout"], "rb") as wanted:
                ran = subprocess.run([program, *args.read().splitlines()], stdin=given, stdout=subprocess.PIPE)
                if ran.returncode != 0:
                    raise Failure(f"the program was built, but its test ended with status {ran.returncode}, expected 0: see its message "
                                  "above")
                if ran.stdout != (expected := wanted.read()):
                    raise Failure(f"the program was built, but its test has failed: {first_difference(expected, ran.stdout)}")

    def prove(self) -> None:
        """Proves one crate after another, and builds the program."""
        calls: list[Call] = []
        for name in self.left:
            with contextlib.suppress(FileNotFoundError):
                os.remove(stamp_of(name))
        with open(LOG, "w", encoding="utf-8") as log:
            print(time.ctime(), file=log)
        try:
            while self.left:
                self.begin(calls)
                time.sleep(0.1)
                for call in [call for call in calls if call.has_ended()]:
                    calls.remove(call)
                    call.tell()
                    self.has_ended(call)
        finally:
            for call in calls:
                call.end()
                call.tell()


def interrupt(number: int, _: object) -> NoReturn:
    """Raises Interrupted for a signal."""
    raise Interrupted(number)


def on_signals(handler: Union[Callable[[int, Optional[FrameType]], Any], signal.Handlers]) -> None:
    """Sets the handler for the signals that end the call."""
    for number in (signal.SIGINT, signal.SIGTERM, signal.SIGHUP):
        signal.signal(number, handler)


def by_chain(crate: Crate) -> float:
    """Returns the sort key of a crate: the work of its longest chain."""
    return crate.chain


def room_on_disk() -> int:
    """Returns the free disk space in MB, as df reports it."""
    return int(subprocess.run(["df", "-Pk", OUT], stdout=subprocess.PIPE).stdout.splitlines()[1].split()[3]) >> 10


def prove(lock: TextIO, laws: bool, is_built: bool) -> None:
    """Proves what is not proved, and builds the program if necessary. The program gets the time at which the proof started, so that later
    edits are noticed."""
    began, crates = time.time(), crates_of_program(laws)
    record, proof = Record(crates_of_program()), Proof(Kit(), crates, lock, is_built)
    if not proof.left:
        return
    wanted, found = round(DISK + KEPT * proof.share()), room_on_disk()
    say(f"{len(proof.left)} of {len(crates)} crates must be proved: about {minutes(proof.seconds_left())} on {cores()} idle "
        f"core{'s' if cores() > 1 else ''}, and {wanted / 1000:.1f} GB of disk")
    if found < wanted:
        raise Failure(f"the disk of {OUT} has only {found:,} MB free, expected {wanted:,} MB: delete some files")
    try:
        os.makedirs(LIBRARIES, exist_ok=True)
        copy_sources(crates)
        proof.prove()
        if not is_built:
            os.replace(f"{COPY}/{NAME}/{NAME}", PROGRAM)
    except Interrupted:
        proved = len(crates) - len(proof.left)
        say(f"stopped: {proved} of {len(crates)} crates are proved; ./bench prove{' --all' if laws else ''} continues from there")
        raise
    finally:
        on_signals(signal.SIG_IGN)
        shutil.rmtree(COPY, ignore_errors=True)
    if not is_built:
        os.utime(PROGRAM, (began, began))
        record.write(PROGRAM)
    kept = int(subprocess.run(["du", "-sk", LIBRARIES], stdout=subprocess.PIPE).stdout.split()[0]) / 1e6
    done = "proved" if is_built else "proved and built"
    say(f"{done} ({clock(time.monotonic() - proof.began)}); {LIBRARIES} keeps {kept:.1f} GB for later proofs")


def stands() -> bool:
    """Returns whether the program was built from the current sources, as the launcher decides."""
    return subprocess.run([f"{TOP}/bench", "prove", "--check"], stderr=subprocess.DEVNULL).returncode == 0


@contextlib.contextmanager
def locked() -> Iterator[TextIO]:
    """Prevents other calls from proving at the same time. Waits first if another call is proving."""
    os.makedirs(OUT, exist_ok=True)
    with open(f"{OUT}/lock", "w", encoding="utf-8") as lock:
        try:
            keep(lock, fcntl.LOCK_NB)
        except BlockingIOError:
            say("another ./bench prove is running: waiting until it ends")
            keep(lock)
        yield lock


def main(words: list[str]) -> int:
    """Proves the crates and builds the program. Returns the status."""
    if words in (["-h"], ["--help"]):
        print(__doc__.strip())
        return 0
    if words == ["--record"]:
        Record(crates_of_program()).write(PROGRAM)
        return 0
    if words[:1] == ["--store"] and len(words) == 2:
        store_verdicts(words[1])
        return 0
    laws = words == ["--all"]
    if words and not laws:
        say(f"prove: found '{' '.join(words)}', expected nothing, --all or --check: ./bench prove [--all | --check]")
        return 2
    Kit()
    on_signals(interrupt)
    with locked() as lock:
        is_built = stands()
        if is_built and not os.path.exists(Record.PATH):
            Record(crates_of_program()).write(PROGRAM)
        if laws or not is_built:
            prove(lock, laws, is_built)
    print(f"{os.path.relpath(PROGRAM, TOP)} is proved and built{', and all laws are proved' if laws else ''}")
    return 0
