"""Ends a tool: with the status of its work, or with an error message if its work, its input or its output has failed."""
import contextlib
import errno
import io
import os
import signal
import sys
from typing import Callable, NoReturn, Optional

from .decks import Failure, end_with_reader

# The status if the output of a tool cannot be written.
NOT_WRITTEN = 3

# Errors without the name of a file that have not occurred in the output.
OF_RESOURCES = (errno.EMFILE, errno.ENFILE, errno.ENOMEM)


class Closed:
    """Standard input or output that was closed before the tool started. Reading or writing it fails."""

    def __init__(self, what: str) -> None:
        """Takes what is closed, `input` or `output`, for the message."""
        self.what = what

    def __getattr__(self, name: str) -> NoReturn:
        """Raises Failure for each use of the stream."""
        sign, use = ("<", "read") if self.what == "input" else (">", "written")
        raise Failure(f"standard {self.what} is closed, so it cannot be {use}: give it a file, for example {sign}/dev/null", NOT_WRITTEN)

    def flush(self) -> None:
        """Does nothing, because nothing was written."""


def open_ends() -> None:
    """Replaces closed streams by ones that fail. Bytes of standard input that are no UTF-8 are read as escapes, and standard error prints
    any character."""
    for name, what in (("stdin", "input"), ("stdout", "output")):
        if getattr(sys, name) is None:
            setattr(sys, name, Closed(what))
    sys.stderr = sys.stderr or open(os.devnull, "w", encoding="utf-8")
    for stream in (sys.stdin, sys.stderr):
        if isinstance(stream, io.TextIOWrapper):
            stream.reconfigure(errors="backslashreplace")


def end(name: str, main: Callable[[list[str]], int], statuses: Optional[dict[int, int]] = None) -> NoReturn:
    """Ends the process with the status of `main`, which gets the words of the command line. If it fails, the error is printed with the
    tool's name before each line; the status is that of the failure, or the one that `statuses` maps it to."""
    open_ends()
    try:
        try:
            sys.exit(main(sys.argv[1:]))
        finally:
            sys.stdout.flush()
    except Failure as failure:
        why, status = str(failure), failure.status
    except KeyboardInterrupt:
        signal.signal(signal.SIGINT, signal.SIG_DFL)
        signal.raise_signal(signal.SIGINT)
    except BrokenPipeError:
        end_with_reader()
        signal.raise_signal(signal.SIGPIPE)
    except OSError as error:
        # The output that is still buffered is dropped.
        with contextlib.suppress(OSError):
            os.dup2(os.open(os.devnull, os.O_WRONLY), 1)
        what = "no further file or process can be opened" if error.errno in OF_RESOURCES else "standard output cannot be written"
        why, status = f"{error.filename or what}: {error.strerror}", NOT_WRITTEN
    print(*(f"{name}: {line}" for line in why.splitlines()), sep="\n", file=sys.stderr)
    sys.exit((statuses or {}).get(status, status))
