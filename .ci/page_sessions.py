"""Tries the time of a session on the page of tools/calculator: its slider, past states and the branches that begin there, runs to a line,
and the last change of a value."""
import json
import os
import signal
from typing import Any

from hp41.decks import answered
from hp41.history import MOST_STATES
from visits import LOOP, Page, Visit, bench_of, on_page, row

# Moves the slider over the session to a state.
SLIDE = "by('moment').value = arguments[0]; by('moment').dispatchEvent(new Event('input'))"

# Executes so many more steps of the command that is executed in pieces, in as many requests as this machine needs.
MORE_STEPS = """
const made = () => Number(/\\d+/.exec(doing ?? '')?.[0] ?? 0);
const wanted = made() + arguments[0];
return (async () => { while (made() < wanted) await ask({ do: 'go', steps: wanted - made() }); })()"""


# By requests alone.

@on_page
def branches(page: Page) -> None:
    """A session goes on from a past state; what followed is kept as a branch, which can be saved and opened again."""
    for key in ("4", "2", "ENTER", "7"):
        answer = page.ask(do="give", deck=f"key {key}\n")
    states = answer["states"]["at"] + len(answer["states"]["changes"])
    whole = page.deck()
    answer = page.go(page.ask(do="branch", state=states - 2))
    row("the deck of a past state", page.deck(), b"key 4\nkey 2\n")
    row("its display", answer["state"]["display"], ["42_"])
    row("the branch that was left", answer["branches"], [[1, "1: 4 commands, up to key 7"]])
    row("the deck of the branch", page.request("GET", "deck?branch=1")[2], whole)
    page.give("key 9\n")
    answer = page.go(page.ask(do="branch", branch=1))
    row("a branch that is opened", (page.deck(), [number for number, _ in answer["branches"]]), (whole, [2]))
    answer = page.go(page.ask(do="branch", entry=0))
    row("a session that goes on from a command", page.deck(), b"key 4\n")
    row("a branch that is kept already is kept once", len(answer["branches"]), 2)
    branches_refused(page)
    page.give(LOOP)
    answer = page.give("trace 9\n")
    end = answer["states"]["at"] + len(answer["states"]["changes"])
    page.go(page.ask(do="branch", state=end - 4))
    row("the deck of a state in a trace", page.deck().decode().splitlines()[-1], "trace 5")
    spellings_kept(page)


def spellings_kept(page: Page) -> None:
    """A branch from the end of a command has the command as it was written; one from a state within it has the steps that were made."""
    for command in ("trace 007", "step  03", "run\t0020 ", "  step", "trace +7"):
        page.ask(do="begin")
        page.give(LOOP)
        page.give(f"{command}\nkey SHIFT\n")
        place = page.ask(do="stop")["states"]
        end = place["at"] + len(place["changes"])
        page.go(page.ask(do="branch", state=end - 1))
        row(f"the deck of a branch after {command!r}", page.deck(), f"{LOOP}{command}\n".encode())
    page.ask(do="begin")
    page.give(LOOP)
    answer = page.give("trace 0009\n")
    page.go(page.ask(do="branch", state=answer["states"]["at"] + len(answer["states"]["changes"]) - 4))
    row("the deck of a state in a trace with zeros", page.deck().decode().splitlines()[-1], "trace 5")


def branches_refused(page: Page) -> None:
    """Branches that there are not and wrong requests are refused, and do not change the session; an empty session has no branches."""
    row("a branch that is not kept", page.ask(do="branch", branch=99),
        (409, "there is no branch 99: only the last 20 are kept, so choose one of the list\n"))
    before = page.deck()
    wrong: list[dict[str, Any]] = [{"branch": "x"}, {"state": None}, {"entry": {}}, {"state": "1e9"}, {}]
    for words in wrong:
        row(f"a branch from {words}", page.ask(do="branch", **words)[0], 400)
    row("the deck of a branch that is no number", page.request("GET", "deck?branch=x")[0], 400)
    row("the session after wrong requests", page.deck(), before)
    row("the file of a browser that has not opened the page", page.request("GET", "recorded", Cookie=None)[0], 403)
    row("a state that there is not", page.ask(do="branch", state=99999),
        (409, "there is no state 99999: the last one of the session is 1\n"))
    row("branches after an empty bench was started", page.ask(do="begin")["branches"], [])


@on_page
def found_displays(page: Page) -> None:
    """A page asks whether an empty display is off. The other pages of the session then get the state with the answer."""
    answer = page.give("program\nCLA\nOFF\nAVIEW\nend\nstep 2\n")
    end = answer["states"]["at"] + len(answer["states"]["changes"])
    row("an empty display, before a page has asked", answer["state"]["off"], None)
    found = {"done": False}
    while found["done"] is False:
        found = page.ask(do="display", state=end, of=answer["session"])
    row("whether the display is off", found, {"done": True, "off": True})
    row("what another page gets of this state", json.loads(page.request("GET", "state")[2])["states"]["changes"][-1]["off"], True)
    page.give("step\n")
    changes = json.loads(page.request("GET", f"state?session={answer['session']}&at={end}")[2])["states"]["changes"]
    row("what a page gets of the next state, if it has not asked", [change["off"] for change in changes], [None])
    row("the display of a session that has ended", page.ask(do="display", state=end, of=-1), {"done": True, "off": None})
    row("the display of a state that there is not", page.ask(do="display", state=999)[0], 409)


# In a browser.

def times(visit: Visit) -> None:
    """The slider goes over the session; a past state begins a branch; runs go to a line, and back to the last change of a value."""
    branches_in_browser(visit)
    old_refusals(visit)
    parts_of_runs(visit)
    runs_to_lines(visit)
    last_changes(visit)
    displays_off(visit)
    breaks_of_past(visit)
    for line, why in (("SIN", "command 4 was refused: ! 13 NotInProfile  line 02, SIN, is not supported (run 9999999)"),
                      ("STOP", "Stopped at 0002, before 0003 was reached")):
        visit.anew()
        visit.browser.run(f"return give('program\\n1\\n{line}\\n2\\nRTN\\nend\\nkey R/S\\n')")
        visit.browser.click("#program [data-at='to l0003']")
        visit.row(f"a run to a line that stops at {line}", "return by('refusal').textContent", why)
    visit.anew()


def branches_in_browser(visit: Visit) -> None:
    """The slider shows a past state, a branch begins there, and the one that was left is saved and opened again."""
    browser = visit.browser
    browser.run("by('trace-panel').open = true")
    browser.run("return press(['1', 'ENTER', '2', '+'])")
    visit.quiet()
    browser.run(SLIDE, browser.run("return lastNumber() - 2"))
    visit.row("the slider", "return [by('lcd').dataset.text, by('past').hidden, by('moment').min]", ["1.0000", False, "0"])
    browser.click("#branch")
    visit.row("a branch", "return [by('lcd').dataset.text, entries.length, by('past').hidden, by('branches').textContent]",
              ["1.0000", 2, True, "1: 4 commands, up to key +"])
    row("its deck", visit.deck(), b"key 1\nkey ENTER\n")
    row("the deck of the branch that was left", browser.saved("#save-branch", "branch.deck"), b"key 1\nkey ENTER\nkey 2\nkey +\n")
    browser.click("#open-branch")
    visit.row("the branch that is opened", "return [by('lcd').dataset.text, entries.length]", ["3.0000", 4])
    browser.click("#session li:nth-child(2) .break")
    visit.row("a session that goes on from a command", "return [by('lcd').dataset.text, entries.length]", ["1.0000", 2])
    visit.anew()


def runs_to_lines(visit: Visit) -> None:
    """A run ends before the line that was clicked, also if it begins there."""
    browser = visit.browser
    browser.run(f"return give({LOOP!r})")
    browser.run("return give('reset\\nprogram\\nLBL 01\\n1\\n+\\nSTO 05\\nGTO 01\\nend\\n')")
    browser.click("#program .line:nth-child(4) [data-at='to l0003']")
    visit.row("a run to a line", "return [present().pos[0], by('refusal').textContent, present().breaks]",
              ["Run 0003", "At position 0003", []])
    browser.click("#program .line:nth-child(4) [data-at='to l0003']")
    visit.row("a run to the same line", "return [present().pos[0], present().numbers[3]]", ["Run 0003", "2"])
    browser.run("return give([...Array(16)].map((_, at) => `break l ${100 + at}\\n`).join(''))")
    visit.quiet()
    browser.click("#program .line:nth-child(5) [data-at='to l0004']")
    visit.row("no run to a line if there are 16 breakpoints", "return [present().pos[0], present().breaks.length, by('refusal').textContent]",
              ["Run 0003", 16, "! 19 BreakFull  break l 4"])
    browser.run("return give([...Array(16)].map((_, at) => `unbreak l ${100 + at}\\n`).join(''))")
    visit.quiet()


def displays_off(visit: Visit) -> None:
    """While the display is off no annunciator is lit, and the sentence about the next line says so; in the file of the session too."""
    browser = visit.browser
    visit.anew()
    browser.run("return give('program\\nSF 01\\nOFF\\nVIEW X\\nCLA\\nAVIEW\\nend\\nstep\\n')")
    seen = "return [[...document.querySelectorAll('#lights .lit')].map((one) => one.textContent), " \
           "by('next').textContent.split(': ').slice(2).join(': ')]"
    on = "Stops the program, and turns the display off: it shows nothing until the next key that is accepted; the key R/S continues " \
         "with the next line."
    off = "Makes X, 0, the message of the display; the display is off until the next key that is accepted."
    visit.row("the annunciators while the display is on", seen, [["1"], on])
    browser.run("return step()")
    visit.row("the annunciators while the display is off", seen, [[], off])
    visit.row("a screen reader gets that the display is off", "return by('live').textContent", "display off")
    browser.type("[")
    visit.row("the annunciators before it was turned off", seen, [["1"], on])
    browser.type("]")
    visit.row("the annunciators after it was turned off", seen, [[], off])
    browser.run("return step()")
    visit.row("a message while the display is off", "return [by('lcd').dataset.text, present().off]", ["", True])
    browser.run("return press(['SHIFT'])")
    visit.row("the next key turns the display on", "return [by('lcd').dataset.text, present().off, by('lights').textContent]",
              ["0.0000", False, "USERGRADRADSHIFT01234PRGMALPHA"])
    visit.anew()


def breaks_of_past(visit: Visit) -> None:
    """A past state is shown with its breakpoints. A click on one acts in the present; the number of states after it is named."""
    browser = visit.browser
    browser.run("return give('program\\nCLX\\n+\\nend\\nbreak l 0\\nbreak l 1\\nunbreak l 0\\n')")
    listed = "return [[...by('breaks').querySelectorAll('button')].map((one) => one.textContent), " \
             "[...document.querySelectorAll('#program [aria-pressed=true]')].map((one) => one.dataset.at), by('past').hidden]"
    visit.row("the breakpoints of the last state", listed, [["● position 0001"], ["l0001"], True])
    earlier = "return by('past').querySelector('span').textContent"
    browser.type("[")
    visit.row("the breakpoints of the state before", listed, [["● position 0000", "● position 0001"], ["l0000", "l0001"], False])
    visit.row("which state is shown", earlier, "This is an earlier state: 1 state before the last one.")
    browser.type("[")
    visit.row("the breakpoints two states before", listed, [["● position 0000"], ["l0000"], False])
    visit.row("which state is shown then", earlier, "This is an earlier state: 2 states before the last one.")
    browser.click("#program [data-at='l0001']")
    visit.row("a breakpoint that is set already in the present", "return [present().breaks, by('past').hidden, by('refusal').textContent]",
              [[["l", "0001"]], True, "The breakpoint at position 0001 is set already in the present state"])
    browser.type("[", "[")
    visit.quiet()
    browser.click("#breaks .break")
    visit.row("a breakpoint that is removed already in the present", "return [present().breaks, by('refusal').textContent]",
              [[["l", "0001"]], "The breakpoint at position 0000 is removed already in the present state"])
    browser.type("[", "[", "[")
    visit.quiet()
    browser.click("#program [data-at='l0000']")
    visit.row("a breakpoint that is set from a past state", "return [present().breaks, by('past').hidden]",
              [[["l", "0000"], ["l", "0001"]], True])
    visit.anew()


def last_changes(visit: Visit) -> None:
    """The page goes back to the state that the last change of a register, a digit or a flag led to, and then to the changes before it; the
    program of runs_to_lines is stepped."""
    browser = visit.browser
    told = "return by('refusal').textContent"
    for _ in range(4):
        browser.run("return step()")
    browser.run("by('watched').value = 'R05'; by('digit').value = ''")
    browser.click("#last-change")
    visit.row("the last change of a register", "return [lineMade(...looked()), by('refusal').textContent]",
              ["Run 0003 STO 05", "The last change of R05: 01000000000000 → 02000000000000"])
    earlier_changes(visit)
    browser.run("by('watched').value = 'X'; by('digit').value = '12'; return goTo(() => Infinity)")
    browser.click("#last-change")
    visit.row("the last change of a digit", told, "The last change of digit 12 of X: 1 → 3")
    browser.run("by('watched').value = 'flag 07'; by('digit').value = ''")
    browser.click("#last-change")
    visit.row("a flag that did not change", told, "No state up to this one changed flag 07")
    browser.run("by('digit').value = '12'; by('watched').value = 'flag 07'; by('watched').dispatchEvent(new Event('change'))")
    browser.click("#last-change")
    visit.row("a flag has no digits", "return [by('digit').disabled, by('refusal').textContent]", [True, "No state up to this one changed flag 07"])
    browser.run("by('digit').value = ''; by('watched').value = 'X'; by('watched').dispatchEvent(new Event('change'))")
    visit.row("a register has digits", "return by('digit').disabled", False)
    visit.anew()
    for size in (4, 20):
        browser.run("return begun(() => give(arguments[0]))", f"size {size}\n")
        visit.quiet()
    browser.run("by('watched').value = 'R12'; by('digit').value = '13'")
    browser.click("#last-change")
    visit.row("a register that a command made", told, "The last change of digit 13 of R12: no such register → 0")


def earlier_changes(visit: Visit) -> None:
    """Each further click goes to the change before. A change that led to the state that is shown counts, also in the last state."""
    browser, seen = visit.browser, "return [by('past').hidden, by('refusal').textContent]"
    first, second = ([False, f"{which} change of R05: 00000000000000 → 01000000000000"] for which in ("An earlier", "The last"))
    browser.click("#last-change")
    visit.row("the change before the last one", seen, first)
    at = browser.run("return shown")
    browser.click("#last-change")
    visit.row("no change before the first one", seen, [False, "No state before this one changed R05"])
    visit.row("the first change stays", "return shown", at)
    browser.type("]")
    browser.click("#last-change")
    visit.row("the last change up to a past state", seen, second)
    browser.type("]", "[")
    browser.click("#last-change")
    visit.row("a change that led to the past state itself", seen, second)
    visit.row("its state", "return shown", at)
    browser.type("[")
    browser.click("#last-change")
    visit.row("a state before all changes", seen, [False, "No state up to this one changed R05"])
    browser.run("return goTo(() => Infinity)")
    for _ in range(2):
        browser.run("return step()")
    browser.click("#last-change")
    visit.row("a change that led to the last state", seen, [True, "The last change of R05: 02000000000000 → 03000000000000"])
    browser.click("#last-change")
    visit.row("the change before it", seen, [False, "An earlier change of R05: 01000000000000 → 02000000000000"])


def old_refusals(visit: Visit) -> None:
    """Refusals that were shown already are not shown again when a session goes on from a past state, or a branch is opened."""
    browser = visit.browser
    browser.run("by('trace-panel').open = true; return give('fly\\nkey 4\\nkey 5\\n')")
    visit.quiet()
    browser.run("return begun(goBack)")
    browser.click("#branch")
    shown = "return [entries.length, by('refusal').textContent, by('causes').textContent]"
    visit.row("a branch after a refusal", shown, [2, "", ""])
    browser.click("#open-branch")
    visit.row("a branch with a refusal that is opened", shown, [3, "", ""])
    browser.run("return begun(() => give('swim\\n'))")
    refused = "return by('refusal').textContent.startsWith('! ')"
    visit.row("a new refusal in it", refused, True)
    os.kill(bench_of(visit.page), signal.SIGKILL)
    visit.comes("a bench that ends after refusals", "return by('ended').hidden", False)
    browser.click("#again")
    visit.row("the session that is repeated", shown, [4, "", ""])
    browser.run("return begun(() => give('crawl\\n'))")
    visit.row("a new refusal after it", refused, True)
    browser.run(SLIDE, 1)
    visit.row("the slider removes it", shown, [5, "", ""])
    browser.run("return begun(() => give('crawl\\n'))")
    browser.click("#trace button")
    visit.row("a step of the trace removes it", shown, [6, "", ""])
    browser.run("return begun(() => give('crawl\\n'))")
    browser.reload()
    visit.row("a page that is loaded again does not show it", shown, [7, "", ""])
    browser.run("return ask({do: 'branch', state: 3})")
    browser.run("return begun(stop)")
    browser.run("return begun(() => give('swim\\n'))")
    visit.row("a refusal after a session that is repeated only in part",
              "return [entries.length, by('refusal').textContent]", [1, "! 50 BadCommand  swim"])
    visit.anew()


def parts_of_runs(visit: Visit) -> None:
    """A state within a run has the run up to it, in the deck and in the trace."""
    browser = visit.browser
    browser.run(f"return give({LOOP!r})")
    browser.run("by('deck-panel').open = true; by('pace').value = ''")
    browser.run("return ask({do: 'give', deck: 'run 100000\\n', steps: 1})")
    for steps in (499, 700):
        browser.run(MORE_STEPS, steps)
    browser.run("return begun(() => goTo(() => pastFirst + past.findIndex((one) => one.doing.trim() === 'run 500')))")
    visit.row("the deck of a state within a run",
              "return [...by('session').lastElementChild.querySelectorAll('pre')].map((one) => one.textContent)", ["run 500", "ran 500 Limit"])
    visit.row("its trace", "return document.querySelector('#trace .next code').textContent", "run 500: ran 500 Limit")
    browser.click("#branch")
    row("the deck of a branch from there", visit.deck().splitlines()[-1], b"run 500")
    visit.anew()


def whole_session(visit: Visit) -> None:
    """The slider reaches states that are not kept; the trace, Back and Forward go on there, and so does a branch."""
    browser = visit.browser
    browser.run("by('trace-panel').open = true")
    deck = b"".join(b"key %d\nkey ENTER\nkey STO 0 %d\nkey +\n" % (number % 10, number % 7) for number in range(MOST_STATES // 4 + 80))
    visit.drop("long.deck", deck)
    visit.agree()
    visit.row("all commands are executed", "return [waits, entries.length, lastNumber()]", [0, deck.count(b"\n"), deck.count(b"\n")])
    visit.row("the slider over the whole session", "return [by('moment').min, Number(by('moment').max)]", ["0", deck.count(b"\n")])
    shown = [lines[0].decode() for _, _, lines in answered(b"".join(line + b"\nshow display\n" for line in deck.splitlines()))[1][1::2]]
    seen = "return [shown, by('lcd').dataset.text, by('past').hidden, stateAt(shown).last[0]]"
    for number in (90, 1234):
        browser.run(SLIDE, number)
        visit.row(f"state {number} of the session", seen, [number, shown[number - 1], False, deck.splitlines()[number - 1].decode()])
    browser.run(SLIDE, 30)
    browser.run(SLIDE, 91)
    visit.row("the slider that is moved while a state is looked for", seen, [91, shown[90], False, deck.splitlines()[90].decode()])
    browser.type("[", "[")
    visit.row("Back from there", seen, [89, shown[88], False, deck.splitlines()[88].decode()])
    traced = "return [...document.querySelectorAll('#trace code')].map((one) => one.textContent).includes('key STO 0 1')"
    visit.row("the trace there", traced, True)
    browser.type("]")
    visit.row("Forward from there", seen, [90, shown[89], False, deck.splitlines()[89].decode()])
    visit.row("what is left below the display", "return [by('refusal').textContent, by('rate').textContent]", ["", ""])
    browser.click("#branch")
    row("the deck of a branch from there", visit.deck(), b"".join(deck.splitlines(True)[:90]))
    visit.row("its display", "return [by('lcd').dataset.text, by('past').hidden]", [shown[89], True])
    browser.run("by('trace-panel').open = false")
    visit.anew()
