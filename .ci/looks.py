"""Measures what users found wrong in the layout of the page: the bar of a past state, refusals on the large page in wide and narrow
windows, the step of a lesson beside the keys, tall steps of the trace, keys that flash again, and the sheet that is printed."""
import base64
import re
from collections.abc import Iterator, Sequence

from visits import Visit, row

# Sizes of windows in which the page itself does not scroll; the one of 853 by 480 is that of 1280 by 720 at 150 %.
WIDE = [(1366, 650), (1024, 650), (853, 480), (1280, 720)]

# What is measured when the page is drawn is measured after two frames.
DRAWN = "return new Promise((done) => requestAnimationFrame(() => requestAnimationFrame(() => done(true))))"


def sized(visit: Visit, width: int, height: int, is_dark: bool = False) -> None:
    """Gives the window a size, and waits until the page is drawn in it."""
    visit.browser.look(width, height, is_dark)
    visit.browser.until(f"return innerWidth === {width} && innerHeight === {height}")
    visit.browser.run(DRAWN)


def choose(visit: Visit, name: str, value: str) -> None:
    """Chooses in a list."""
    visit.browser.run("by(arguments[0]).value = arguments[1]; by(arguments[0]).dispatchEvent(new Event('change'))", name, value)


def large_at(visit: Visit, panels: Sequence[str], sizes: Sequence[tuple[int, int]]) -> Iterator[tuple[str, str]]:
    """Shows the large page with each panel at each size of the window; after the last one, an empty session and the page as it was. Yields
    the panel, and what the page is for the name of a row."""
    visit.browser.click("#large")
    for panel in panels:
        choose(visit, "panel", panel)
        for width, height in sizes:
            sized(visit, width, height)
            yield panel, f"large with {panel} at {width} by {height}"
    visit.browser.click("#large")
    sized(visit, 1280, 900)
    visit.anew()


# Whether the buttons below the keys end above the bar of a past state, and the panels too; and where the panels begin.
ABOVE = """
const [bar, bottom] = [by('bars').getBoundingClientRect(), (one) => one.getBoundingClientRect().bottom];
const panels = [...document.querySelectorAll('#beside, #beside details')].filter((one) => one.checkVisibility());
const ends = [by('runs'), ...(by('large').checked ? panels : [by('beside')])];
return [bar.height > 20, ends.filter((one) => bottom(one) > bar.top).map((one) => one.id)]"""
PANELS = "return ['display', 'runs', 'next-panel', 'program-panel'].map((id) => Math.round(by(id).getBoundingClientRect().top))"
NEXT = """
const [next, bar] = [document.querySelector('#program .next'), by('bars')].map((one) => one.getBoundingClientRect());
return next.bottom <= bar.top"""


def bars(visit: Visit) -> None:
    """The bar of a past state covers no button and no panel, moves nothing, and the next line stays in view; arrows are in one column."""
    browser = visit.browser
    browser.run("return give('program\\n' + '1\\n+\\n'.repeat(30) + 'end\\nkey R/S\\nrun 22\\nkey 1\\nkey 2\\nkey 3\\n')")
    browser.run("by('deck-panel').open = true")
    arrows = "return new Set([...document.querySelectorAll('#session .break')].map((one) => one.getBoundingClientRect().left)).size"
    visit.row("the columns of arrows in the deck", arrows, 1)
    for is_large, panel in ((False, "stack-panel"), (True, "stack-panel"), (True, "keys")):
        if is_large != browser.run("return by('large').checked"):
            browser.click("#large")
        choose(visit, "panel", panel)
        for width, height in WIDE:
            sized(visit, width, height)
            where = f"{'large with ' + panel if is_large else 'the page'} at {width} by {height}"
            browser.run("by('program').scrollTop = 0; return goTo(() => Infinity)")
            browser.run(DRAWN)
            tops = browser.run(PANELS)
            browser.run("return goTo((at) => at - 2)")
            browser.run(DRAWN)
            visit.row(f"what is below the bar, {where}", ABOVE, [True, []])
            row(f"the bar moves nothing, {where}", browser.run(PANELS), tops)
            visit.row(f"the next line above the bar, {where}", NEXT, True)
    browser.click("#large")
    sized(visit, 1280, 900)
    visit.anew()


# Whether the refusal as a whole and its causes are in view, nothing lies over them, the page has no scroll bar, and the texts of the row
# of buttons are not cut off.
REFUSED = """
const [causes, root] = [by('causes'), document.documentElement];
const { left, right, top, bottom } = causes.getBoundingClientRect();
const over = [[left + 9, top + 9], [right - 30, bottom - 9]].map(([x, y]) => causes.contains(document.elementFromPoint(x, y)));
const runs = [...by('runs').children].filter((one) => one.checkVisibility()).map((one) => one.getBoundingClientRect());
return [causes.querySelector('p').textContent === by('refusal').title, causes.querySelectorAll('dd').length > 0, over,
  top >= 0 && bottom <= innerHeight && bottom - top > 90, root.scrollHeight > innerHeight || root.scrollWidth > innerWidth,
  by('program-panel').getBoundingClientRect().height > 40, by('pos').scrollWidth > by('pos').clientWidth,
  new Set(runs.map((one) => Math.round((one.top + one.bottom) / 16))).size, by('pos').getClientRects()[0].height < 40]"""
LIST = """
const [list, style] = [by('pace'), getComputedStyle(by('pace'))];
const pen = document.createElement('canvas').getContext('2d');
pen.font = style.font;
return list.clientWidth - pen.measureText('full speed').width >= 20"""


def large_refusals(visit: Visit) -> None:
    """On the large page a refusal and its causes are readable in the window, and the buttons are in one line."""
    for panel, where in large_at(visit, ["stack-panel", "keys"], WIDE):
        visit.browser.run("return press(['7', 'SIN'])")
        visit.row(f"a refusal, {where}", REFUSED, [True, True, [True, True], True, False, True, False, 1, True])
        if panel != "keys":
            visit.row(f"the list of speeds, {where}", LIST, True)


# Which buttons below the display or the keys are not in view as a whole, are covered, or are not in the line of the others.
BUTTONS = """
const buttons = ['run', 'step', 'stop', 'lesson-step'].map(by);
const [panel, root] = [by('calculator').getBoundingClientRect(), document.documentElement];
return buttons.filter((one) => {
  const { left, right, top, bottom } = one.getBoundingClientRect();
  return !one.checkVisibility() || top < 0 || bottom > innerHeight || right > Math.min(panel.right, innerWidth) || one.scrollWidth > one.clientWidth
    || !one.contains(document.elementFromPoint((left + right) / 2, (top + bottom) / 2)) && !one.disabled
    || Math.abs(top - buttons[0].getBoundingClientRect().top) > 2;
}).map((one) => one.id).concat(root.scrollWidth > innerWidth || root.scrollHeight > innerHeight ? ['the page scrolls'] : [])"""


def lesson_steps(visit: Visit) -> None:
    """On the large page with the keys, or with any panel that is not the lesson's, Next step is in view and executes a step of the lesson."""
    browser = visit.browser
    browser.run("return openLesson('trace')")
    for panel, where in large_at(visit, ["keys", "stack-panel"], WIDE):
        visit.row(f"buttons of a lesson that are not in view, {where}", BUTTONS, [])
        browser.run("by('run').textContent = 'Continue'")
        visit.row(f"buttons that are not in view while a run can continue, {where}", BUTTONS, [])
        at = browser.run("return lastNumber()")
        browser.click("#lesson-step")
        visit.row(f"what Next step executes, {where}", f"return lastNumber() > {at} && by('panel').value", panel)


# Windows with one column, in which the page itself scrolls.
NARROW = [(390, 844), (320, 640), (700, 900)]
# Whether a refusal as a whole and its causes are shown, which of their texts are covered, whether they are cut off, which parts of the
# page they cover, whether the page is wider than the window, which buttons below the keys are cut off, and which keys are too small.
CAUSES = """
const [causes, boxOf] = [by('causes'), (one) => one.getBoundingClientRect()];
const hidden = [...causes.querySelectorAll('p, dt, dd')].filter((one) => {
  one.scrollIntoView({ block: 'center' });
  const { left, top, bottom } = boxOf(one);
  return !causes.contains(document.elementFromPoint(left + 9, (top + bottom) / 2));
}).map((one) => one.textContent);
const lies = boxOf(causes);
const isCovered = ({ top, bottom }) => top < lies.bottom && bottom > lies.top;
const covered = ['case', 'runs', 'next-panel', 'program-panel'].filter((id) => isCovered(boxOf(by(id))));
const isCut = (one) => boxOf(one).right > innerWidth || one.scrollWidth > one.clientWidth + 1;
const cut = [...by('runs').children].filter((one) => one.checkVisibility() && isCut(one)).map((one) => one.id);
const isSmall = ({ width, height }) => Math.min(width, height) < 24;
const small = [...document.querySelectorAll('.key')].filter((one) => one.checkVisibility() && isSmall(boxOf(one)));
return [causes.querySelector('p').textContent === by('refusal').title, causes.querySelectorAll('dd').length > 0, hidden,
  causes.scrollHeight > causes.clientHeight + 1 || causes.scrollWidth > causes.clientWidth + 1, covered,
  document.documentElement.scrollWidth > innerWidth, cut, small.map((one) => one.dataset.key)]"""


def narrow_refusals(visit: Visit) -> None:
    """On the large page in a narrow window a refusal and all its causes are readable, cover nothing, and the keys are as large as a finger."""
    for _, where in large_at(visit, ["stack-panel", "keys"], NARROW):
        visit.browser.run("return press(['7', 'SIN'])")
        visit.row(f"a refusal, {where}", CAUSES, [True, True, [], False, [], False, [], []])


# Whether the last step of the trace is taller than a line, and whether it is in view.
TALL = """
const [one, panel] = [document.querySelector('#trace .next'), by('trace-panel')].map((part) => part.getBoundingClientRect());
return [one.height > 60, one.bottom <= panel.bottom && one.top >= panel.top]"""


def tall_steps(visit: Visit) -> None:
    """The last step of the trace is in view as a whole, also if it has several rows."""
    browser = visit.browser
    browser.run("by('trace-panel').open = true")
    browser.run("return give('program\\n' + '1\\n2\\n+\\nX<>Y\\n'.repeat(9) + 'end\\nkey R/S\\n')")
    for _, where in large_at(visit, ["trace-panel"], WIDE):
        seen = []
        for _ in range(7):
            browser.run("return step()")
            visit.quiet()
            seen.append(browser.run(TALL))
        row(f"tall steps, {where}", [any(is_tall for is_tall, _ in seen), all(is_whole for _, is_whole in seen)], [True, True])
    browser.run("by('trace-panel').open = false")


# Whether a long block leaves room in its panel, scrolls by itself, and is followed by a visible note with its number of lines; and whether
# the title of the lesson and the page are not cut off. Then whether a title is not cut off in the list of lessons.
BLOCK = """
const pre = document.querySelector('#parts .next').firstElementChild;
const panel = getComputedStyle(by('parts')).overflowY === 'visible' ? by('lesson') : by('parts');
const [box, note] = [panel, pre.nextElementSibling].map((one) => one.getBoundingClientRect());
const title = by('lesson').querySelector('h2');
return [pre.clientHeight < 0.85 * panel.clientHeight, pre.scrollHeight > 3 * pre.clientHeight, note.bottom <= box.bottom,
  pre.nextElementSibling.textContent, title.scrollWidth <= title.clientWidth && document.documentElement.scrollWidth <= innerWidth];"""
TITLE = """
const pen = document.createElement('canvas').getContext('2d');
pen.font = getComputedStyle(by('lessons')).font;
return pen.measureText(by('lessons').selectedOptions[0].textContent).width + 24 <= by('lessons').offsetWidth"""


def long_blocks(visit: Visit) -> None:
    """On the large page a long block of a lesson does not fill the panel, and titles are not cut off."""
    browser = visit.browser
    browser.run("return openLesson('bisection')")
    sized(visit, 1280, 720)
    browser.click("#large")
    choose(visit, "panel", "lesson")
    for width, height in ((1280, 720), (1366, 650), (1024, 650), (1920, 1080), (390, 844)):
        sized(visit, width, height)
        browser.run("scrollTo(0, 0); show()")
        visit.row(f"a long block at {width} by {height}", BLOCK, [True, True, True, "60 lines: scroll to see all", True])
    sized(visit, 1280, 720)
    browser.run("openLesson('key-to-byte')")
    visit.agree()
    for width, height in ((1280, 720), (1366, 650), (1024, 650), (1920, 1080)):
        sized(visit, width, height)
        visit.row(f"a title in the list of lessons at {width} by {height}", TITLE, True)
    browser.click("#large")
    sized(visit, 1280, 900)
    visit.anew()


def flashes(visit: Visit) -> None:
    """Keys that were pressed do not flash again, and a screen reader says that ALPHA is empty."""
    browser = visit.browser
    browser.run("return press(['1', 'SIN', 'ALPHA'])")
    visit.comes("keys that flash later", "return document.querySelectorAll('.pressed, .refused').length", 0)
    visit.comes("an empty ALPHA is said", "return by('live').textContent", "empty display (ALPHA)")
    visit.anew()


# The sizes of letters on the sheet, but for those of the annunciators and the keys.
PRINTED = """
const hasText = (one) => [...one.childNodes].some((node) => node.nodeType === 3 && node.textContent.trim());
const printed = [...document.querySelectorAll('main *')].filter((one) => one.checkVisibility() && hasText(one)
  && !one.closest('#lights, #live, #keys'));
return [...new Set(printed.map((one) => getComputedStyle(one).fontSize))].sort()"""
# What of the sheet is outside of it, which lines of text are cut, and of which panels the lines that are printed and those that are counted are
# not all lines.
SHEETS = """
const shown = [...document.querySelectorAll('#beside details')].filter((one) => one.checkVisibility());
const boxes = [...shown.map(boxIn), by('causes')].filter((one) => one?.checkVisibility());
const seen = boxes.map((box) => [box, linesIn(box), box.getBoundingClientRect().height]);
const isOutside = (one) => one.getBoundingClientRect().bottom > SHEET + 1 || one.getBoundingClientRect().right > 704;
const cut = seen.flatMap(([box, lines, height]) => lines.filter(([begin, end]) => end > 1 && begin < height - 1 && (begin < -1 || end > height + 1))
  .map(() => box.id));
const noted = (one) => one?.className === 'unprinted' ? Number(/[0-9]+/.exec(one.textContent)[0]) : 0;
const counted = seen.filter(([box, lines, height]) => lines.filter(([begin, end]) => begin > -1 && end < height + 1).length
  + noted(box.previousElementSibling) + noted(box.nextElementSibling) !== lines.length).map(([box]) => box.id);
return [[...shown, ...document.querySelectorAll('.unprinted'), by('case')].filter(isOutside).map((one) => one.id), cut, counted]"""
# Which open panels are neither on the sheet nor named there.
UNNAMED = """
const named = by('beside').lastElementChild.textContent.split(': ').at(-1).split(', ');
return [...document.querySelectorAll('#beside details[open]:not(#files-panel, [hidden])')].filter((one) => !one.checkVisibility())
  .map((one) => one.querySelector('summary').textContent).filter((name) => !named.includes(name))"""
# What a sheet must not change.
KEPT = """
return [document.documentElement.className, document.body.className, document.documentElement.dataset.theme, by('program').scrollTop,
  document.querySelectorAll('.unprinted, .omitted, [style]:not([style=""])').length, by('program').clientHeight]"""
# The sizes of paper in inches, and the margins of 12 mm.
PAPERS, MARGIN = {"A4": (8.27, 11.69), "Letter": (8.5, 11)}, 12 / 25.4


def sheet(visit: Visit, name: str) -> None:
    """Counts whether what is printed is one page without cut lines, and whether the page is afterwards as it was before."""
    browser = visit.browser
    visit.quiet()
    before = browser.run(KEPT)
    browser.run("dispatchEvent(new Event('beforeprint'))")
    browser.tell("Emulation.setEmulatedMedia", {"media": "print"})
    row(f"what is outside of the sheet, cut or not counted: {name}", browser.run(SHEETS), [[], [], []])
    row(f"open panels that are not named: {name}", browser.run(UNNAMED), [])
    browser.tell("Emulation.setEmulatedMedia", {"media": ""})
    browser.run("dispatchEvent(new Event('afterprint'))")
    row(f"the page after it was printed: {name}", browser.run(KEPT), before)
    for paper, (width, height) in PAPERS.items():
        margins = {f"margin{side}": MARGIN for side in ("Top", "Bottom", "Left", "Right")}
        printed = browser.tell("Page.printToPDF", {"paperWidth": width, "paperHeight": height, **margins})
        found = re.findall(rb"/Type /Pages\s*/Count ([0-9]+)", base64.b64decode(printed["data"]))
        row(f"pages of {paper}: {name}", found, [b"1"])


def prints(visit: Visit) -> None:
    """One sheet is printed, from the large page too, and in any window. It cuts no line, and says what it lacks."""
    browser = visit.browser
    lines = "[...Array(60)].map((_, at) => `LBL ${10 + at}\\n\"TEXT ${at}\"\\n${at}.5\\nSTO ${10 + at % 30}\\n`).join('')"
    browser.run(f"return give('program\\n' + {lines} + 'end\\nwords 8\\n130 123 226 3E0\\nend\\nkey R/S\\nrun 90\\nkey R/S\\n')")
    sheet(visit, "the panels that are open at first")
    browser.run("by('program').scrollTop = by('program').scrollHeight")
    sheet(visit, "the last lines of a program")
    browser.run("by('program').scrollTop = 500; return press(['SIN', 'PRGM'])")
    sheet(visit, "lines with keys, and causes")
    browser.run("return give('key PRGM\\ncall 8000\\nstep 2\\nkey SIN\\n')")
    browser.run("for (const one of document.querySelectorAll('details:not(#files-panel)')) one.open = true")
    visit.quiet()
    found = []
    for where in ("all panels", "all panels of the large page"):
        sheet(visit, where)
        browser.run("dispatchEvent(new Event('beforeprint'))")
        found.append(browser.run(PRINTED))
        browser.run("dispatchEvent(new Event('afterprint'))")
        browser.click("#large")
    row("sizes of letters in print, large and not", found[1], found[0])
    sized(visit, 390, 844, True)
    sheet(visit, "all panels of a narrow window in the dark")
    sized(visit, 1280, 900)
    browser.run("for (const one of document.querySelectorAll('details')) "
                "one.open = ['next-panel', 'program-panel', 'stack-panel', 'deck-panel'].includes(one.id)")
    visit.anew()
