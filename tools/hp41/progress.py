"""Lines about the progress of tools/prove-module, on standard error: if this is a terminal, or if they are asked for."""
import sys

is_shown = False


def begin(is_asked: bool) -> None:
    """Decides whether lines are shown."""
    global is_shown
    is_shown = is_asked or sys.stderr is not None and sys.stderr.isatty()


def show(text: str) -> None:
    """Shows a line."""
    if is_shown:
        print(f"prove-module: {text}", file=sys.stderr, flush=True)


def counted(number: int, thing: str) -> str:
    """Returns a number of things as text."""
    return f"{number} {thing}{'' if number == 1 else 's'}"
