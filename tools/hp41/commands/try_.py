"""Answers like ./bench with the same words, using `rt try`: nothing about the answer is proved.

usage: tools/try WORD..     (./bench calls it if the proved program is not built, and says so)

The status and both outputs are those of the program. The input is read to its end first, and the answer is printed when the
program has ended. `rt try` gives no answer if the program runs for more than 30 seconds in this slow build, if it prints more
than 1,048,576 bytes, or if its input has more than 67,108,864 bytes.

Status 70: there is no answer, and standard error says why."""
import signal
import sys

from ..unproved import NoAnswer, answer

NO_ANSWER = 70


def main(words: list[str]) -> int:
    """Prints the answer of the unproved program. Returns the status."""
    signal.signal(signal.SIGINT, signal.SIG_DFL)
    try:
        status, output, faults = answer(words)
    except NoAnswer as why:
        print(f"bench: no answer: {why}", "bench: to prove and build the program, run ./bench prove", sep="\n", file=sys.stderr)
        return NO_ANSWER
    signal.signal(signal.SIGPIPE, signal.SIG_DFL)
    try:
        sys.stdout.buffer.write(output)
        sys.stdout.buffer.flush()
    except OSError as error:
        print(f"bench: standard output cannot be written: {error.strerror}", file=sys.stderr)
        return NO_ANSWER
    sys.stderr.buffer.write(faults)
    sys.stderr.buffer.flush()
    return status
