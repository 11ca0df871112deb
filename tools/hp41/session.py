"""A process of `bench run -` that is asked one command at a time. The bench writes each reply before it reads the next command."""
import re
import shutil
import subprocess
from typing import IO

from .decks import BENCH, Failure, LONGEST_LINE, MARK, MARK_ANSWER, MEMORY, NO_ANSWER, OPENERS, ended, running, shown


def words_of(line: bytes) -> list[bytes]:
    """Returns the words of a line, separated as the bench separates them."""
    return [word for word in re.split(rb"[ \t]+", line.removesuffix(b"\r")) if word]


def is_end(line: bytes) -> bool:
    """Returns whether a line ends a block."""
    return len(line.removesuffix(b"\r")) <= LONGEST_LINE and words_of(line) == [b"end"]


def is_whole(command: bytes) -> bool:
    """Returns whether a command is complete: a block with its `end`, or one line."""
    first, *others = command.split(b"\n")
    if len(first) <= LONGEST_LINE and words_of(first)[:1] and words_of(first)[0] in OPENERS:
        return [is_end(line) for line in others].count(True) == 1 and is_end(others[-1])
    return not others


def shown_commands(commands: bytes) -> str:
    """Returns some commands for a message: the first line, and how many lines follow it."""
    first, *others = commands.rstrip(b"\n").split(b"\n")
    return f"`{shown(first)}`{f' and {len(others)} more lines' if others else ''}"


def why_no_program(ready: subprocess.CompletedProcess[bytes], advice: str) -> str:
    """Returns why there is no proved program, from what `./bench prove --check` has printed, and what to do if it can be built."""
    said = ready.stderr.decode(errors="replace").splitlines()
    if not said:
        return f"./bench prove --check ended with status {ready.returncode} and printed no reason"
    why = said[0].removeprefix("bench: ")
    # With status 1 and rt, the rest of the line says how `./bench run` answers without a proof.
    return f"{why.split(': ')[0]}: {advice}" if ready.returncode == 1 and shutil.which("rt") else why


def want_program() -> None:
    """Checks that the program is built. `rt try` is not enough, because it reads all commands before it answers any."""
    ready = subprocess.run([BENCH, "prove", "--check"], stdin=subprocess.DEVNULL, capture_output=True)
    if ready.returncode and (ready.returncode != 1 or shutil.which("rt")):
        raise Failure(why_no_program(ready, "this tool needs the proved program: build it with ./bench prove"), NO_ANSWER)


def pipes_of(process: subprocess.Popen[bytes]) -> tuple[IO[bytes], IO[bytes]]:
    """Returns the input and the output of a process, which are pipes."""
    assert process.stdin is not None and process.stdout is not None
    return process.stdin, process.stdout


class Session:
    """A bench with so many registers of memory that runs until it is closed. It starts empty, and keeps the effects of its commands.
    `is_known` is set if the program is known to be built."""

    def __init__(self, memory: str = MEMORY, is_known: bool = False) -> None:
        """Starts a bench."""
        if not is_known:
            want_program()
        # In a session of its own, so that an interrupt at a terminal reaches only this tool.
        self.bench = subprocess.Popen([BENCH, *running(memory)], stdin=subprocess.PIPE, stdout=subprocess.PIPE, start_new_session=True)
        self.input, self.output = pipes_of(self.bench)
        # The number of bytes that the bench was sent. It reads at most LONGEST_DECK.
        self.sent = 0

    def ask(self, command: bytes) -> list[bytes]:
        """Returns the lines that a command or a whole block prints."""
        command = command.rstrip(b"\n")
        if not is_whole(command):
            first = command.decode(errors="replace").split("\n")[0]
            count = command.count(b"\n") + 1
            raise Failure(f"`{first}`: found {count} line{'s' * (count > 1)} that are not one block, expected one command, or one block "
                          "that ends with `end`", 2)
        return self.ask_all(command)

    def ask_all(self, commands: bytes) -> list[bytes]:
        """Returns the lines that some commands print. They and their marker must fit into a pipe, so they have at most 50,000 bytes if
        they print more than a pipe holds."""
        lines: list[bytes] = []
        when = f"before it answered {shown_commands(commands)}"
        self.sent += len(commands) + 1 + len(MARK)
        try:
            self.input.write(commands.rstrip(b"\n") + b"\n" + MARK)
            self.input.flush()
            while lines[-2:] != MARK_ANSWER:
                line = self.output.readline()
                if not line:
                    raise Failure(ended(self.bench.wait(), when), NO_ANSWER)
                lines.append(line[:-1])
        except OSError as error:
            if self.bench.poll() is not None:
                raise Failure(ended(self.bench.wait(), when), NO_ANSWER) from error
            raise Failure(f"{shown_commands(commands)} cannot be written to the bench: {error.strerror}", NO_ANSWER) from error
        return lines[:-2]

    def close(self) -> int:
        """Ends the bench. Returns its status, which is 1, because the marker is refused."""
        self.input.close()
        self.output.close()
        return self.bench.wait()
