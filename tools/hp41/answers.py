"""Answers the requests of the page of tools/calculator, one request at a time.

If the bench ends, the page gets the reason, and the commands that were given so far are kept."""
import base64
import os
import re
import subprocess
import sys
import tempfile
import threading
from typing import TYPE_CHECKING, Any, Callable, Optional, TypeVar, cast

from . import TOOLS
from .decks import MARKS_OF_UTF16, NO_ANSWER, Failure, bytes_of, lines_of, shown
from .branches import Branch, Branches
from .brought import Brought
from .desk import PAGES, Desk
from .displays import Darkness
from .keyboard import ROWS, places
from .lessons import Lesson, OpenLesson, grouped, lessons
from .parts import parts_of, refusal_of
from .recorded import recorded
from .repeating import Repeat, Search
from .refusals import Refused, look_into_blocks
from .returns import Returns
from .unsupported import unsupported

if TYPE_CHECKING:
    from .commands.where import Documents

# The longest time in seconds for an import or an export, and for one request that executes commands.
LONGEST_TOOL, LONGEST_GO = 120, 0.25
MOST_FILES = 16

# Quotes that a word processor writes, and that the bench does not read.
QUOTES = re.compile("[“”„‘’«»]")


Found = TypeVar("Found", bound=Search)

# A request of the page, and its answer, as JSON has them.
Request = dict[str, Any]
Reply = dict[str, Any]


class Causes:
    """The usual causes of refusals, as tools/where prints them. A thread reads its tables, so that the page does not have to wait."""

    def __init__(self) -> None:
        """Starts the thread."""
        self.documents: Optional[Documents] = None
        self.reader = threading.Thread(target=self.read, daemon=True)
        self.reader.start()

    def read(self) -> None:
        """Reads the tables."""
        from .commands.where import Documents
        self.documents = Documents()

    def of(self, text: bytes, refusal: str) -> tuple[str, list[list[str]]]:
        """Returns the refused line of a command or block, and the usual causes of the refusal: a list of pairs, what is printed first and
        its explanation."""
        self.reader.join()
        if self.documents is None:
            return "", []
        lines = lines_of(text)
        one = Refused(lines, 0, len(lines) - 1, refusal)
        look_into_blocks([one])
        line = "" if one.inner is None else f"line {one.inner + 1}: {one.shown()}"
        causes = [[head.replace("`", ""), (why or "").replace("`", "")] for head, why in self.documents.causes_of(one).items()]
        quotes = QUOTES.findall(text.decode("utf-8", "replace"))
        return line, [[" ".join(quotes), 'typographic quotes: write straight ones, as in key "HI"'], *causes] if quotes else causes


class Answers:
    """The desk with the bench, and the answers to the requests of the page."""

    def __init__(self, memory: Optional[str], found: Optional[dict[str, Lesson]] = None) -> None:
        """`found` are the lessons; without them the examples are."""
        self.lock, self.causes, self.lessons = threading.RLock(), Causes(), lessons() if found is None else found
        self.branches = Branches()
        self.number = 0
        self.ended: Optional[str] = None
        self.last_id: Any = None
        self.desk = Desk(memory)
        self.repeat: Optional[Repeat] = None
        # What is searched for in states, by the names of the requests.
        self.searches: dict[str, Search] = {}
        # The files that were imported last.
        self.brought: Optional[Brought] = None
        self.unsupported = unsupported()

    def close(self) -> None:
        """Ends the bench, after the thread that reads the tables: its own run of the bench would otherwise report a closed pipe."""
        self.causes.reader.join()
        self.desk.beside.close()
        self.forget()
        self.desk.bench.close()

    def calls(self) -> dict[str, Callable[..., Any]]:
        """Returns the functions that answer requests, by the names of the requests."""
        return {"state": self.state, "do": self.do, "import": self.bring_in, "export": self.take_out, "deck": self.deck,
                "version": self.version, "recorded": self.recorded}

    def version(self) -> Reply:
        """Returns what the page gets twice a second: the number of the last change, and how the bench has ended, or None.
        While another request uses the bench, its end is not looked for."""
        if self.lock.acquire(blocking=False):
            try:
                if self.ended is None:
                    self.ended = self.desk.bench.why()
            finally:
                self.lock.release()
        return {"version": self.number, "ended": self.ended}

    def deck(self, asked: Optional[Request] = None) -> bytes:
        """Returns the session as the bytes of a deck, or a branch that was left."""
        with self.lock:
            return self.branches.branch(int(asked["branch"])).deck() if asked and "branch" in asked else self.desk.deck()

    def recorded(self) -> bytes:
        """Returns the session as a page that needs no server, as bytes."""
        with self.lock:
            return recorded({**self.told({}), "branches": [], "lesson": None})

    # The state of the session.

    def state(self, asked: Request) -> Reply:
        """Returns the state of the bench, and the entries of the session that the page does not have yet."""
        with self.lock:
            return self.told(asked)

    def told(self, asked: Request) -> Reply:
        """Returns the answer to a request: the states and the entries after those that the page has."""
        desk = self.desk
        is_known = asked.get("session") in (desk.number, str(desk.number))
        since = max(0, int(asked.get("since", 0)) - 1) if is_known else 0
        known = int(asked["at"]) if is_known and "at" in asked else None
        doing = desk.doing()
        answer = {"version": self.number, "session": desk.number, "states": desk.history.told(known), "plugs": desk.plugs,
                  "doing": doing.decode("latin-1") if doing else None,
                  "entries": [[number, *entry.told(), entry.is_repeated, entry.refused] for number, entry in enumerate(desk.log[since:], since)],
                  "waits": len(desk.queue), "ended": self.ended, "lesson": self.lesson_told(is_known),
                  "branches": self.branches.told()}
        if self.brought:
            answer["brought"] = self.brought.told(desk.queue)
        if desk.queue and desk.queue[0].kind:
            answer["left"] = desk.queue[0].left
        if not is_known:
            answer["keys"] = [[list(key) + [place] for key, place in zip(row, places(row))] for row in ROWS]
            answer["lessons"] = grouped(self.lessons)
            answer["unsupported"] = self.unsupported
        return answer

    def lesson_told(self, is_known: bool) -> Optional[Reply]:
        """Returns the lesson: its name and position, for each part the number of its entry in the session, None if it was not begun and -1
        if its entry was replaced, and the parts if the page does not have them; None without a lesson."""
        lesson = self.desk.lesson
        if lesson is None:
            return None
        told: Reply = {"name": lesson.name, "title": lesson.title, "at": lesson.at(),
                       "numbers": [part.entry.number if part.entry else None for part in lesson.parts]}
        if not is_known or lesson.is_split:
            told["parts"] = [[part.shown(), part.is_command, part.paragraphs()] for part in lesson.parts]
        return told

    # Requests that change the session.

    def do(self, asked: Request) -> Reply:
        """Executes a request of the page, and returns the answer."""
        name = asked["do"]
        calls: dict[str, Callable[[Request], Optional[Reply]]] = {
            "give": self.give, "go": self.go, "stop": self.stop, "next": self.next, "lesson": self.open_lesson,
            "open": self.open, "again": self.again, "begin": self.begin, "causes": self.causes_of, "list": self.listed,
            "pages": self.pages, "branch": self.branch, "past": self.past, "returns": self.returning, "display": self.display}
        call = calls.get(name)
        if call is None:
            raise ValueError(name)
        seconds, steps, _ = asked.get("seconds", 0.05), asked.get("steps"), int(asked.get("since", 0))
        if not isinstance(seconds, (int, float)) or not (steps is None or isinstance(steps, int) and steps > 0):
            raise ValueError((seconds, steps))
        with self.lock:
            if asked.get("id") is not None and asked["id"] == self.last_id:
                # The answer to this request was lost.
                return self.told(asked)
            self.last_id = asked.get("id")
            if self.ended and name not in ("again", "begin", "open", "lesson", "branch"):
                return self.told(asked)
            try:
                answer = call(asked)
            except Failure as failure:
                if failure.status != NO_ANSWER:
                    raise
                return self.end(asked)
            return self.told(asked) if answer is None else answer

    def end(self, asked: Request) -> Reply:
        """Records that the bench has ended, drops the commands that wait, and returns the answer."""
        self.number += 1
        self.desk.stop()
        self.desk.bench.close_input()
        self.ended = self.desk.bench.why() or "The bench has ended."
        return self.told(asked)

    def look(self) -> None:
        """Reads the state of the bench again."""
        self.desk.look()
        self.number += 1

    def give(self, asked: Request) -> None:
        """Adds commands and blocks after those that wait, or before them if the request says so, and starts executing."""
        is_first, waited = asked.get("first") is True, len(self.desk.queue)
        self.desk.give(asked["deck"].encode(), is_first, asked.get("on") is True)
        self.go(asked, len(self.desk.queue) - waited if is_first else None)

    def go(self, asked: Request, parts: Optional[int] = None) -> None:
        """Executes commands that wait, for a limited time, or only the first parts of them."""
        if self.desk.queue:
            self.desk.go(min(max(asked.get("seconds", 0.05), 0.001), LONGEST_GO), asked.get("steps"), parts)
            if self.desk.is_seen:
                self.number += 1
            else:
                self.look()

    def stop(self, _: Request) -> None:
        """Drops the commands that wait."""
        self.desk.stop()
        self.look()

    def begin(self, _: Request) -> None:
        """Starts an empty bench, for a session of its own, without the branches of the one before."""
        self.branches = Branches()
        self.renew()

    def renew(self) -> None:
        """Starts an empty bench."""
        self.desk.begin()
        self.ended, self.brought = None, None
        self.look()

    def open(self, asked: Request) -> None:
        """Opens a deck on an empty bench. Its commands wait until the page asks for them."""
        deck = base64.b64decode(asked["data"], validate=True)
        if deck.startswith(MARKS_OF_UTF16):
            raise Failure("the deck is in UTF-16: save it in UTF-8, without a byte order mark")
        parts = parts_of(deck, True)
        self.begin(asked)
        self.desk.queue = parts

    def again(self, _: Request) -> None:
        """Repeats the session on a new bench."""
        self.go_on(self.desk.branch_to(len(self.desk.log)))

    def go_on(self, branch: Branch) -> None:
        """Has an empty bench repeat a session up to some place. The lesson stays open at the step of this place."""
        parts, lesson = branch.parts()
        self.renew()
        self.desk.queue, self.desk.lesson = parts, lesson

    def branch(self, asked: Request) -> None:
        """Goes on from a past state, from the end of an entry of the session, or from the end of a branch that was left. The session so
        far is kept as a branch."""
        desk = self.desk
        if "branch" in asked:
            branch = self.branches.branch(int(asked["branch"]))
            self.branches.drop(int(asked["branch"]))
        else:
            branch = desk.branch_to(int(asked["entry"]) + 1) if "entry" in asked else desk.branch_at(int(asked["state"]))
        if desk.deck() != branch.deck():
            self.branches.keep(desk.branch_to(len(desk.log)))
        self.go_on(branch)

    def past(self, asked: Request) -> Reply:
        """Returns states of the session that are not kept, around the one with a number; before they are found, how many entries of the
        session were executed again."""
        number = self.state_in(asked)
        try:
            if self.repeat is None or self.repeat.session != self.desk.number:
                self.forget()
                self.repeat = Repeat(self.desk, self.desk.another())
            self.repeat.want(number)
            return {"found": self.repeat.go(LONGEST_GO), "reached": len(self.repeat.desk.log)}
        except Failure as failure:
            self.forget()
            raise again(failure) from failure

    def state_in(self, asked: Request) -> int:
        """Returns the number of a state that a request names."""
        number, end = int(asked["state"]), self.desk.history.end
        if not 0 <= number <= end:
            raise Failure(f"there is no state {number}: the last one of the session is {end}")
        return number

    def forget(self) -> None:
        """Ends the benches that execute the session again."""
        for one in (self.repeat, *self.searches.values()):
            if one:
                one.close()
        self.repeat, self.searches = None, {}

    def search(self, asked: Request, begin: Callable[[Desk, int], Found]) -> tuple[bool, Optional[Found]]:
        """Goes on with the search in a state that a request names, which `begin` begins. Returns whether it is at its end, and the search;
        None if another session has begun since the page asked about a state of the session with the number `of`."""
        if asked.get("of", self.desk.number) != self.desk.number:
            return True, None
        number, name = self.state_in(asked), asked["do"]
        try:
            one = self.searches.get(name)
            if one is None or one.key != (self.desk.number, number):
                if one:
                    one.close()
                one = self.searches[name] = begin(self.desk, number)
            return one.go(LONGEST_GO), cast(Found, one)
        except Failure as failure:
            self.forget()
            raise again(failure) from failure

    def returning(self, asked: Request) -> Reply:
        """Returns whether the return addresses of the program in a state are found, and these; None if they cannot be found, with the
        reason. The state is kept with them and the reason."""
        is_done, one = self.search(asked, Returns)
        if is_done and one:
            self.desk.history.amend(self.state_in(asked), {"returns": [one.found, one.why]})
        return {"done": is_done, "returns": one.found if one else None, "why": one.why if one else ""}

    def display(self, asked: Request) -> Reply:
        """Returns whether it is found if the display is off in a state, and whether it is; None if this cannot be found. The state is kept
        with it."""
        is_done, one = self.search(asked, Darkness)
        found = one.found if one else None
        if found is not None:
            self.desk.history.amend(self.state_in(asked), {"off": found})
        return {"done": is_done, "off": found}

    def open_lesson(self, asked: Request) -> None:
        """Opens a lesson at its first step."""
        name = asked["name"]
        if name not in self.lessons:
            raise Failure(f"unknown lesson '{name}': expected one of {', '.join(self.lessons)}")
        lesson = self.lessons[name]
        parts = parts_of(bytes_of(lesson.path), True)
        self.begin(asked)
        self.desk.lesson = OpenLesson(name, lesson.title, parts, list(parts))

    def next(self, asked: Request) -> None:
        """Executes the next step or the next command of the lesson, or all the rest of it."""
        lesson, how = self.desk.lesson, asked["how"]
        if lesson is None:
            return
        if how == "all" or not self.desk.queue:
            self.desk.queue += lesson.take(how == "all")
        command = next((part for part in self.desk.queue if part.is_command), None)
        is_stepped = how == "step" and command is not None and command.kind in ("step", "trace")
        self.go({**asked, "steps": 1} if is_stepped else asked)

    # What is listed.

    def pages(self, _: Request) -> Reply:
        """Returns the plugged banks."""
        return {"pages": self.desk.plugged()}

    def listed(self, asked: Request) -> Reply:
        """Returns the instructions of a bank, or the lines of the programs in a page."""
        page, bank, kind = asked["page"], asked["bank"], asked["kind"]
        if page not in list(PAGES) or bank not in list("1234") or kind not in ("words", "lines"):
            raise ValueError((page, bank, kind))
        rows, broken = self.desk.listed(page, bank, kind == "words")
        return {"rows": rows, "broken": broken}

    def causes_of(self, asked: Request) -> Reply:
        """Returns the usual causes for the refusal of an entry of the session."""
        entry = self.desk.log[int(asked["entry"])]
        refusal = refusal_of(entry.reply)
        if refusal is None:
            return {"causes": [], "line": ""}
        text = b"key " + entry.key.encode() + b"\n" if entry.key else entry.text
        line, causes = self.causes.of(text, refusal)
        return {"causes": causes, "line": line}

    # Files.

    def bring_in(self, asked: Request) -> Reply:
        """Imports files with tools/import. Returns its messages, and adds the deck that it makes to the commands that wait."""
        if len(asked["files"]) > MOST_FILES:
            raise Failure(f"found {len(asked['files'])} files: at most {MOST_FILES} can be imported at once")
        files = [(file_name(file["name"]), base64.b64decode(file["data"], validate=True)) for file in asked["files"]]
        if not files:
            raise Failure("found no file, expected one at least")
        nameless = next((one["name"] for one, (name, _) in zip(asked["files"], files) if not name), None)
        if nameless is not None:
            raise Failure(f"'{shown(nameless)}' has no letter or digit of a file name: name it by its kind, for example x.raw")
        names = [name for name, _ in files]
        twice = next((name for at, name in enumerate(names) if name in names[:at]), None)
        if twice is not None:
            same = " and ".join(f"'{shown(file['name'])}'" for file, name in zip(asked["files"], names) if name == twice)
            raise Failure(f"{same} are read under the same name, '{twice}': rename one of them")
        with self.lock:
            free = [page for page in PAGES[4:] + PAGES[:4] if page not in self.desk.views["pages"]] or ["8"]
        with tempfile.TemporaryDirectory() as room:
            for name, data in files:
                write_file(os.path.join(room, name), data)
            page = str(asked["page"]) if asked.get("page") in list(PAGES) else free[0]
            ran = tool("import", [*self.desk.words, "--page", page, *(name for name, _ in files)], room)
        told = ran.stderr.decode(errors="replace")
        if ran.returncode:
            why = f"tools/import ended with status {ran.returncode} and printed no message: please report it"
            return {"told": told or why, "good": False}
        with self.lock:
            if not self.ended:
                self.brought = Brought(self.desk.give(ran.stdout, True), told)
            return {"told": told, "good": True}

    def take_out(self, asked: Request) -> bytes:
        """Exports a page, its programs or the programs in memory with tools/export. Returns the bytes of the file."""
        kind, page, label = asked["kind"], asked.get("page") or "", asked.get("label") or ""
        if kind not in ("rom", "source", "raw", "text") or page and page not in list(PAGES):
            raise ValueError((kind, page))
        with self.lock:
            if kind in ("rom", "source") and not page:
                page = next(iter(self.desk.views["pages"]), "8")
            if not page and self.desk.has_no_program():
                raise Failure("no program is in memory: type, load or import one, then export it")
            deck = self.desk.leaves(page)
        words = [*(["--page", page] if page else []), *([f"--label={label}"] if label else [])]
        ran = tool("export", [kind, *words, "-", "-"], None, deck)
        if ran.returncode:
            # The page gives the deck, which has no name.
            raise Failure(ran.stderr.decode(errors="replace").replace("export: -: ", "").strip() or
                          f"tools/export ended with status {ran.returncode} and printed no message: please report it")
        return ran.stdout


def again(failure: Failure) -> Failure:
    """Returns the error for a session that cannot be executed again."""
    return Failure(f"the session cannot be executed again: {failure}")


def file_name(name: str) -> str:
    """Returns a safe name for a file: without its folder, and with only letters, digits, `.`, `_` and `-`."""
    return re.sub(r"[^A-Za-z0-9._-]", "_", os.path.basename(name.replace("\\", "/")))[-100:].lstrip(".-")


def write_file(path: str, data: bytes) -> None:
    """Writes a file of an import. If the disk is full, that is reported."""
    try:
        with open(path, "wb") as file:
            file.write(data)
    except OSError as error:
        raise Failure(f"{os.path.basename(path)} cannot be written for the import: {error.strerror}") from error


def tool(name: str, words: list[str], folder: Optional[str], given: bytes = b"") -> subprocess.CompletedProcess[bytes]:
    """Runs tools/import or tools/export, and returns its status and both outputs."""
    try:
        return subprocess.run([sys.executable, os.path.join(TOOLS, name), *words], cwd=folder, input=given,
                              capture_output=True, timeout=LONGEST_TOOL)
    except subprocess.TimeoutExpired as error:
        advice = "try fewer or smaller files" if name == "import" else "save the session, and export its deck with tools/export"
        raise Failure(f"tools/{name} did not end within {LONGEST_TOOL} seconds and was stopped: {advice}") from error
