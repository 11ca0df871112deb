"""Benches that a desk asks several commands at a time."""
import subprocess
import tempfile
import threading
import time
from typing import Optional

from .decks import BENCH, MARK, MARK_ANSWER, NO_ANSWER, Failure
from .session import pipes_of

# The longest time in seconds to wait for an answer of the bench, even on a busy machine.
PATIENCE = 120


def read(lines: list[bytes]) -> list[str]:
    """Returns lines of the bench as texts."""
    return [line.decode("latin-1") for line in lines]


class Watchdog:
    """Kills each bench that does not answer in time. One thread watches all of them, because to start a thread takes time."""

    def __init__(self) -> None:
        """Begins without processes."""
        self.lock = threading.Lock()
        self.until: dict[subprocess.Popen[bytes], float] = {}
        self.late: set[int] = set()
        self.thread: Optional[threading.Thread] = None

    def begin(self, process: subprocess.Popen[bytes]) -> None:
        """Watches a process from now on."""
        with self.lock:
            self.until[process] = time.monotonic() + PATIENCE
            if self.thread is None:
                self.thread = threading.Thread(target=self.watch, daemon=True)
                self.thread.start()

    def end(self, process: subprocess.Popen[bytes]) -> None:
        """Watches a process no more."""
        with self.lock:
            self.until.pop(process, None)

    def watch(self) -> None:
        """Kills processes that are late."""
        while True:
            time.sleep(0.5)
            with self.lock:
                for process in [one for one, until in self.until.items() if time.monotonic() > until]:
                    self.late.add(process.pid)
                    process.kill()


WATCHDOG = Watchdog()


class Bench:
    """A bench that answers several commands at a time. If it does not answer in time, it is killed."""

    def __init__(self, words: list[str]) -> None:
        """Starts a bench with some words of its command line."""
        self.told, self.sent = tempfile.TemporaryFile(), 0
        self.bench = subprocess.Popen([BENCH, "run", *words, "-"], stdin=subprocess.PIPE, stdout=subprocess.PIPE, stderr=self.told)
        self.input, self.output = pipes_of(self.bench)

    def ask_all(self, commands: list[bytes]) -> list[list[str]]:
        """Returns the lines that each of some whole commands prints."""
        WATCHDOG.begin(self.bench)
        try:
            data = b"".join(command + b"\n" + MARK for command in commands)
            self.sent += len(data)
            self.input.write(data)
            self.input.flush()
            return [self.answer() for _ in commands]
        except (OSError, ValueError) as error:
            raise self.failure() from error
        finally:
            WATCHDOG.end(self.bench)

    def answer(self) -> list[str]:
        """Returns the lines up to the next marker."""
        lines: list[bytes] = []
        while lines[-2:] != MARK_ANSWER:
            line = self.output.readline()
            if not line:
                raise self.failure()
            lines.append(line[:-1])
        return read(lines[:-2])

    def failure(self) -> Failure:
        """Returns the error for a bench that has ended before it answered. It repeats the message of the bench, which is in a file."""
        self.close_input()
        return Failure(str(self.why()), NO_ANSWER)

    def why(self) -> Optional[str]:
        """Returns how the bench has ended; None while it runs."""
        status = self.bench.poll()
        if status is None:
            return None
        if self.bench.pid in WATCHDOG.late:
            return f"The bench was stopped because it gave no answer within {PATIENCE} seconds."
        self.told.seek(0)
        told = self.told.read(1000).decode(errors="replace").partition("\n")[0]
        how = f"by signal {-status}" if status < 0 else f"with status {status}"
        return f"The bench has ended {how}{': ' + told if told else '.'}"

    def close_input(self) -> None:
        """Closes the input of the bench and waits until it ends, so that its status is known."""
        try:
            self.input.close()
            self.bench.wait(2)
        except (OSError, subprocess.TimeoutExpired):
            self.bench.kill()
            self.bench.wait()

    def close(self) -> None:
        """Ends the bench, even if it does not answer."""
        self.close_input()
        self.output.close()
