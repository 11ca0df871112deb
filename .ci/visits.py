"""A tools/calculator and a page of it in a browser, for the scripts .ci/page-*: the requests of the page, and what a visitor does."""
import base64
import functools
import http.client
import json
import os
import re
import signal
import subprocess
import sys
import time
from collections.abc import Callable, Sequence
from email.message import Message
from typing import Any, Optional, TextIO, cast

from judging import BENCH, TOP, closing, judge, run, sure

from browser import PATIENCE, Browser, missing
from hp41.decks import answered
from hp41.history import applied

LOOP = "program\nLBL 01\n1\n+\nGTO 01\nend\nkey R/S\n"

NO_UTF8 = b"# caf\xe9 \xff\xfe\0\r\n\n"

KEY = ".key[data-key='%s']"

DISPLAY = "return document.querySelector('#lcd').dataset.text"

# Whether all that the page began is at its end, and whether it asks before a session ends.
QUIET = "return isQuiet()"

ASKS = "return by('sure').open ? 'asks' : isQuiet() && 'quiet'"

DROP = """const data = new DataTransfer();
data.items.add(new File([Uint8Array.from(atob(arguments[1]), (letter) => letter.charCodeAt(0))], arguments[0]));
for (const kind of ['dragover', 'drop']) document.dispatchEvent(new DragEvent(kind, {dataTransfer: data, cancelable: true}));"""


# For how many seconds a page may be away here: for as long as another check shows another calculator, however slow the machine is.
AWAY = 100_000


def started(away: int, warning: int, *words: str) -> list[str]:
    """Returns the command that starts tools/calculator with these words. It ends `away` seconds after its last page was closed, and prints
    a warning `warning` seconds before."""
    code = ("import sys; sys.path.insert(0, %r); from hp41 import serving; serving.AWAY, serving.WARNING = %d, %d\n"
            "from importlib.machinery import SourceFileLoader as Loader\nsys.argv[0] = 'calculator'\n"
            "Loader('__main__', %r).exec_module(sys.modules['__main__'])" % (f"{TOP}/tools", away, warning, f"{TOP}/tools/calculator"))
    return [sys.executable, "-c", code, "--no-browser", *words]


def row(name: str, found: object, wanted: object) -> None:
    """Counts what was found."""
    judge(found == wanted, name, f"{str(found)[:600]!r} and not {str(wanted)[:600]!r}")


def printed(deck: bytes) -> list[str]:
    """Returns what ./bench prints for a deck."""
    return run([BENCH, "run", "-"], given=deck).stdout.decode("latin-1").splitlines()


class Page:
    """A tools/calculator, and the requests of a browser that has opened it."""

    def __init__(self, *words: str) -> None:
        """Starts the calculator with these words."""
        self.process = subprocess.Popen(started(AWAY, 60, *words), stdout=subprocess.PIPE, text=True)
        self.address = cast(TextIO, self.process.stdout).readline().strip()
        found = sure(re.fullmatch(r"http://127\.0\.0\.1:([0-9]+)(/[^/]+/)(.*)", self.address))
        self.port, self.path = int(found[1]), found[2]
        self.cookie = ""
        self.last: tuple[int, bytes] = (0, b"")

    def open(self) -> int:
        """Opens the page; its cookie is kept."""
        status, headers, _ = self.request("GET", "")
        self.cookie = (headers.get("Set-Cookie") or "").split(";")[0] or self.cookie
        return status

    def request(self, method: str, name: str, body: Any = None, path: Optional[str] = None,
                **headers: Optional[str]) -> tuple[int, Message, bytes]:
        """The status, the headers and the body of the answer to a request."""
        given: dict[str, Optional[str]] = {"Cookie": self.cookie} if self.cookie else {}
        if body is not None:
            given["Content-Type"] = "application/json"
        given.update({key.replace("_", "-"): value for key, value in headers.items()})
        connection = http.client.HTTPConnection("127.0.0.1", self.port, timeout=PATIENCE)
        try:
            connection.request(method, path or self.path + name, body, {key: value for key, value in given.items() if value is not None})
            reply = connection.getresponse()
            return reply.status, reply.headers, reply.read()
        finally:
            connection.close()

    def ask(self, path: str = "do", **words: Any) -> Any:
        """The answer to a request of the page's."""
        status, _, body = self.request("POST", path, json.dumps(words))
        self.last = (status, body[:300])
        if status != 200:
            return status, body.decode()
        answer = json.loads(body)
        if "states" in answer:
            answer["state"] = dict(answer["states"]["base"])
            for change in answer["states"]["changes"]:
                answer["state"] = applied(answer["state"], change)
        return answer

    def give(self, deck: str, **words: Any) -> Any:
        """Executes a deck to its end."""
        answer = self.ask(do="give", deck=deck, **words)
        return self.go(answer)

    def go(self, answer: Any) -> Any:
        """Executes what waits to its end."""
        while isinstance(answer, dict) and answer["waits"] and not answer["ended"]:
            answer = self.ask(do="go", seconds=0.25)
        return answer

    def deck(self) -> bytes:
        """The session as a deck."""
        return self.request("GET", "deck")[2]

    def replies(self) -> list[str]:
        """All that the session's commands have printed."""
        return [line for _, _, reply, *_ in self.ask(do="stop")["entries"] for line in reply]

    def end(self) -> int:
        """Ends it, by a signal as Ctrl-C gives it."""
        self.process.send_signal(signal.SIGINT)
        return self.process.wait(PATIENCE)


class Visit:
    """A page that is open in a browser, and its tools/calculator."""

    def __init__(self, browser: Browser, *words: str) -> None:
        """Starts a calculator with these words, and opens its page."""
        self.browser, self.page = browser, Page(*words)
        browser.look(1280, 900)
        browser.open(self.page.address)
        self.quiet()

    def quiet(self) -> None:
        """Waits until all that the page began is at its end."""
        if not self.browser.until(QUIET):
            raise TimeoutError(f"the page is not quiet within {PATIENCE} seconds")

    def agree(self) -> bool:
        """Lets the page begin another session, also if it asks first. Returns whether it has asked."""
        is_asked = bool(self.browser.until(ASKS) == "asks")
        if is_asked:
            self.browser.click("#yes")
        self.quiet()
        return is_asked

    def row(self, name: str, script: str, wanted: object) -> None:
        """Counts whether a script comes to answer what is wanted, once the page is quiet."""
        self.quiet()
        self.comes(name, script, wanted)

    def comes(self, name: str, script: str, wanted: object) -> None:
        """Counts whether a script comes to answer what is wanted."""
        row(name, self.browser.until(script, lambda found: bool(found == wanted)), wanted)

    def shown(self) -> Any:
        """Returns the text of the display."""
        self.quiet()
        return self.browser.run(DISPLAY)

    def deck(self) -> bytes:
        """The session as a deck, by the page's link."""
        self.quiet()
        return base64.b64decode(self.browser.run("return fetch(by('save').href).then((reply) => reply.blob()).then(base64Of)"))

    def drop(self, name: str, data: bytes) -> None:
        """A file that is dropped on the page."""
        self.quiet()
        self.browser.run(DROP, name, base64.b64encode(data).decode())

    def anew(self) -> None:
        """An empty bench."""
        self.quiet()
        self.browser.run("return ask({do: 'begin'})")
        self.quiet()


def same_deck(name: str, page: Page) -> None:
    """The session's deck, given to ./bench, prints what the session printed."""
    row(f"{name}: the session's deck", printed(page.deck()), page.replies())


def same_displays(name: str, visit: Visit, found: list[Any]) -> None:
    """What was shown after each command of the session is what ./bench shows after it."""
    lines = visit.deck().decode().splitlines()
    shown = [answer[-1].decode() for _, _, answer in answered("".join(f"{line}\nshow display\n" for line in lines).encode())[1][1::2]]
    row(name, found, shown)


def benches_of(page: Page) -> list[int]:
    """Returns the processes that tools/calculator has started, and that have the command line of the session's bench."""
    found = []
    for name in filter(str.isdigit, os.listdir("/proc")):
        try:
            with open(f"/proc/{name}/stat", encoding="latin-1") as file:
                fields = file.read().rpartition(")")[2].split()
            with open(f"/proc/{name}/cmdline", encoding="latin-1") as file:
                words = file.read().split("\0")
        except OSError:
            continue
        if fields[1] == str(page.process.pid) and words[1:3] == ["run", "-"]:
            found.append(int(name))
    return found


def bench_of(page: Page) -> int:
    """Returns the process of the session's bench. A bench that reads the tables of causes may run beside it: its end is waited for."""
    end = time.monotonic() + PATIENCE
    while len(found := benches_of(page)) != 1:
        if time.monotonic() > end:
            raise LookupError(f"found the benches {found}, expected one")
        time.sleep(0.02)
    return found[0]


# The checks of a script.

def on_page(check: Callable[[Page], None]) -> Callable[[], None]:
    """Decorates a check that needs no browser but a page: it gets the page of a calculator of its own."""
    @functools.wraps(check)
    def alone() -> None:
        """Tries the check."""
        page = Page()
        try:
            page.open()
            check(page)
        finally:
            page.end()
    return alone


def chosen_of(names: Sequence[str]) -> Optional[Sequence[str]]:
    """Begins a script with checks of these names. Returns those that the command line names, or all of them if it is empty. If it names
    another one, prints a message and returns None."""
    # A process in the background may ignore SIGINT (Ctrl-C), and its children would inherit that.
    signal.signal(signal.SIGINT, signal.default_int_handler)
    words = sys.argv[1:]
    if set(words) <= set(names):
        return words or names
    print(f"{os.path.basename(sys.argv[0])}: expected names of checks: {', '.join(names)}", file=sys.stderr)
    return None


def visited(checks: Sequence[Callable[[Visit], None]]) -> None:
    """Tries checks on one page in a browser. If Chromium or its driver is missing, prints that they are skipped."""
    lacking = missing()
    if lacking:
        print(f"skipped: {', '.join(check.__name__ for check in checks)}, which want {' and '.join(lacking)}")
        return
    browser = Browser()
    try:
        visit = Visit(browser)
        for check in checks:
            try:
                check(visit)
            except (OSError, LookupError, TypeError, ValueError) as error:
                row(check.__name__, repr(error), "an answer")
        row("the browser complains of nothing", browser.complaints(), [])
        visit.page.end()
    finally:
        browser.close()


def tried(alone: Sequence[Callable[[], None]], in_browser: Sequence[Callable[[Visit], None]]) -> int:
    """Tries the checks that the command line names, or all of them: first those that need no browser. Prints the closing line, and returns
    the status."""
    chosen = chosen_of([check.__name__ for check in (*alone, *in_browser)])
    if chosen is None:
        return 2
    for check in alone:
        if check.__name__ in chosen:
            check()
    shown = [check for check in in_browser if check.__name__ in chosen]
    if shown:
        visited(shown)
    return closing()
