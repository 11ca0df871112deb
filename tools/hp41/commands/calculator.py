"""Opens the calculator in the browser: keys and display, and beside them registers, program, processor and trace.

usage: tools/calculator [--port N] [--memory N] [--lesson NAME] [--lessons FOLDER] [--no-browser] [FILE]

Prints the address of the page, and opens it in the browser if there is a window system. The page is served on 127.0.0.1 only,
and only to the first browser that opens the address. Everything that the page shows is printed by one process of ./bench.
docs/CALCULATOR.md describes the page.

  FILE               opens the deck FILE as a lesson, at its first step
  --port N           serves the page on port N; without this option, on any free port
  --memory N         runs the bench with N registers of memory: 64, 128, 192, 256 or 320
  --lesson NAME      opens the lesson NAME, an example of examples/, at its first step
  --lessons FOLDER   adds the decks of FOLDER to the lessons; their names are own/NAME
  --no-browser       only prints the address

The calculator ends two minutes after its last page was closed, ten minutes after it started if no page was opened, or when Ctrl-C
is pressed.

Status 0: it ended in one of these ways. 2: the command line is wrong. 70: the bench is not built or does not start, or the port
is in use."""
import argparse
import os
import tempfile
import threading
import webbrowser
from html import escape
from typing import Optional
from urllib.parse import quote

from ..answers import Answers
from ..commandlines import Parser
from ..decks import MEMORIES, Failure, bytes_of
from ..lessons import Lesson, lessons
from ..parts import parts_of
from ..serving import listen, serve
from ..session import want_program

# Environment variables that show that there is a window system. A browser of the terminal would take over this terminal, and it runs no
# scripts.
WINDOWS = ("DISPLAY", "WAYLAND_DISPLAY", "BROWSER")

# The file that the browser opens. It leads to the page, so that the token is in no command line, which other users can read.
LEADING = """<!DOCTYPE html>
<html lang="en"><head><meta charset="utf-8"><title>Calculator on the bench</title><meta name="referrer" content="no-referrer">
<meta http-equiv="refresh" content="0; url={address}"></head><body><p><a href="{address}">Open the calculator</a></p></body></html>
"""


def read_options(words: list[str]) -> argparse.Namespace:
    """Parses the command line."""
    parser = Parser(prog="calculator", add_help=False, allow_abbrev=False,
                    usage="tools/calculator [--port N] [--memory N] [--lesson NAME] [--lessons FOLDER] [--no-browser] "
                          "[FILE]")
    parser.add_argument("--port", type=int, default=0)
    parser.add_argument("--memory", choices=MEMORIES)
    parser.add_argument("--lesson")
    parser.add_argument("--lessons", metavar="FOLDER")
    parser.add_argument("--no-browser", action="store_true")
    parser.add_argument("deck", metavar="FILE", nargs="?")
    options = parser.parse_args(words)
    if not 0 <= options.port <= 65535:
        parser.error(f"--port {options.port}: expected a port from 0 to 65535")
    if options.lesson is not None and options.deck is not None:
        parser.error(f"found both --lesson {options.lesson} and FILE {options.deck}, expected one of them")
    return options


def lessons_of(options: argparse.Namespace) -> tuple[dict[str, Lesson], Optional[str]]:
    """Returns all lessons, and the name of the one that is opened at the start, or None."""
    if options.deck is not None:
        deck = bytes_of(options.deck)
        try:
            parts_of(deck, True)
        except Failure as why:
            raise Failure(f"{options.deck}: {why}", why.status) from why
    found = lessons(options.lessons, options.deck)
    if options.lesson is not None and options.lesson not in found:
        raise Failure(f"unknown lesson '{options.lesson}': expected one of {', '.join(found)}", 2)
    return found, options.lesson if options.deck is None else "given"


def open_browser(address: str, folder: str) -> None:
    """Opens the page in the browser, by a file in a folder that only this user can read. The browser may run until it is closed, and so
    it is waited for in a thread."""
    path = os.path.join(folder, "calculator.html")
    with open(path, "w", encoding="utf-8", opener=lambda name, flags: os.open(name, flags, 0o600)) as file:
        file.write(LEADING.format(address=escape(address)))
    threading.Thread(target=webbrowser.open, args=(f"file://{path}",), daemon=True).start()


def main(words: list[str]) -> int:
    """Serves the page until it is closed. Returns the status."""
    if words in (["-h"], ["--help"]):
        print(__doc__.strip())
        return 0
    options = read_options(words)
    want_program()
    found, lesson = lessons_of(options)
    answers = Answers(options.memory, found)
    try:
        server = listen(options.port, answers.calls())
        address = server.address() + (f"?lesson={quote(lesson)}" if lesson else "")
        print(address, flush=True)
        with tempfile.TemporaryDirectory() as folder:
            # The server has its port already: the browser may ask before it serves.
            if not options.no_browser and any(map(os.environ.get, WINDOWS)):
                open_browser(address, folder)
            serve(server)
    except KeyboardInterrupt:
        pass
    finally:
        answers.close()
    return 0
