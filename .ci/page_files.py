"""Requests of the page of tools/calculator that import and export files."""
import base64
import json
import os

from judging import read, tool

from visits import Page, row, same_deck


def export(page: Page, kind: str, plugged: str = "") -> tuple[int, bytes]:
    """Returns the status and the body of the answer to a request for an export of programs, or of what is plugged in a page."""
    status, _, body = page.request("POST", "export", json.dumps({"kind": kind, **({"page": plugged} if plugged else {})}))
    return status, body


def given(*paths: str) -> list[dict[str, str]]:
    """Returns files as the page sends them."""
    return [{"name": os.path.basename(path), "data": base64.b64encode(read(path)).decode()} for path in paths]


def refused_files(page: Page) -> None:
    """A file whose commands the bench refuses is not called imported, also if it has doubts."""
    small, doubtful = given("examples/programs/bisection.raw"), [
        {"name": "x.txt", "data": base64.b64encode(b'LBL "AB"\nXROM 28,01\nEND\n').decode()}]
    page.give("reset\nsize 319\n")
    page.ask("import", files=small)
    row("a file without room for it", page.go(page.ask(do="go"))["brought"],
        {"waits": 0, "told": "bisection.raw was not loaded: ! 16 NoRoom  load", "good": False})
    page.give("reset\nprogram\nLBL 01\nGTO 01\nend\nkey R/S\n")
    page.ask("import", files=doubtful)
    told = page.go(page.ask(do="go"))["brought"]
    row("a doubtful file while a program runs", (told["told"].splitlines()[0], "in, with doubts" in told["told"], told["good"]),
        ("x.txt was not loaded: ! 24 Busy  program", False, False))
    page.give("reset\n")
    page.ask("import", files=doubtful)
    told = page.go(page.ask(do="go"))["brought"]
    row("a doubtful file that is in", ("x.txt: in, with doubts" in told["told"], "not loaded" in told["told"], told["good"]),
        (True, False, True))
    page.ask("import", files=small)
    told = page.ask(do="stop")["brought"]
    row("a file whose commands are stopped", (told["told"], told["good"]),
        ("bisection.raw was not loaded: its commands were stopped before the bench had read them", False))
    page.ask("import", files=small)
    row("a file that is in", page.go(page.ask(do="go"))["brought"], {"waits": 0, "told": "", "good": True})
    row("no file is called imported after the session was begun anew", page.ask(do="begin").get("brought"), None)


NO_PROGRAM = b"no program is in memory: type, load or import one, then export it\n"


def files(page: Page) -> None:
    """Files in by tools/import, and out by tools/export."""
    page.ask(do="begin")
    page.give("key PRGM 1 + PRGM SHIFT RCL . .\n")
    wanted = tool("export", ["raw", "-", "-"], given=page.deck()).stdout
    row("an END that GTO . . wrote goes out", (export(page, "raw")[1], wanted[-1]), (wanted, 0))
    page.ask(do="begin")
    for kind in ("raw", "text"):
        row(f"no program as {kind}", export(page, kind), (409, NO_PROGRAM))
    raw = page.ask("import", files=given("examples/programs/bisection.raw"))
    page.go(page.ask(do="go"))
    row("a program's bytes come in", (raw["good"], page.ask(do="stop")["state"]["lines"][0]), (True, '0000 LBL "BIS"'))
    wanted = tool("export", ["text", "-", "-"], given=page.deck()).stdout
    row("a program goes out as text", export(page, "text")[1], wanted)
    row("a program goes out as bytes", export(page, "raw")[1], read("examples/programs/bisection.raw"))
    files_of_modules(page)
    programs_of_a_page(page)
    wrong_files(page)
    same_deck("files", page)
    refused_files(page)


def files_of_modules(page: Page) -> None:
    """Sources and images are plugged into the next page that is free, and go out again."""
    for name in ("8", "9"):
        source = page.ask("import", files=given("examples/first-module/first.asm", "examples/first-module/first.page"))
        answer = page.go(page.ask(do="go"))
        found = (source["good"] or source["told"], answer["ended"], answer["state"]["pages"][-1:])
        row(f"a source comes in at page {name}", found, (True, None, [name]))
    image = export(page, "rom", "8")[1]
    row("an image goes out", len(image), 8192)
    page.ask("import", files=[{"name": "first.rom", "data": base64.b64encode(image).decode()}])
    answer = page.go(page.ask(do="go"))
    row("an image comes in", answer["state"]["pages"], ["8", "9", "A"])
    row("the names of its pages", page.ask(do="pages")["pages"], [["8", "1", "first.asm"], ["9", "1", "first.asm"], ["A", "1", "first.rom"]])
    row("a source goes out", b"NAME" in export(page, "source", "A")[1], True)


def programs_of_a_page(page: Page) -> None:
    """The programs of a page go out instead of those in memory, and a label is refused where tools/export refuses it."""
    page.give(tool("import", ["--module", "6", "--page", "B", "examples/programs/bisection.raw"]).stdout.decode() + "program\nLBL 02\nend\n")
    for kind in ("text", "raw"):
        wanted = tool("export", [kind, "--page", "B", "-", "-"], given=page.deck())
        row(f"the programs of a page go out as {kind}", (export(page, kind, "B"), wanted.returncode), ((200, wanted.stdout), 0))
    status, _, body = page.request("POST", "export", json.dumps({"kind": "rom", "page": "B", "label": "BIS"}))
    row("a label of an image", (status, b"--label" in body), (409, True))


# Names of files that are refused together, with the message.
WRONG_NAMES: list[tuple[str, list[str], str]] = [
    ("seventeen files", [f"{number}.raw" for number in range(17)], "found 17 files: at most 16 can be imported at once"),
    ("two files of one name", ["a b.raw", "a_b.raw"], "'a b.raw' and 'a_b.raw' are read under the same name, 'a_b.raw': rename one of them"),
    ("no file", [], "found no file, expected one at least"),
    ("a file without a name", ["/"], "'/' has no letter or digit of a file name: name it by its kind, for example x.raw")]


def wrong_files(page: Page) -> None:
    """A file with an error, names that are refused, and a page that cannot go out are reported."""
    bad = page.ask("import", files=[{"name": "bad.asm", "data": base64.b64encode(b"RTNN\n").decode()}])
    row("a file with a fault is told", (bad["good"], "bad.asm:1" in bad["told"]), (False, True))
    bad = page.ask("import", files=[{"name": "../../etc/passwd", "data": "AA=="}])
    row("a file's name has no folder", bad["good"], False)
    for name, names, text in WRONG_NAMES:
        row(f"{name} are refused", page.ask("import", files=[{"name": one, "data": "AA=="} for one in names]), (409, f"{text}\n"))
    row("a page that is not plugged", export(page, "rom", "E"), (409, b"page E: ! 03 NotPlugged: plug a module there first\n"))
