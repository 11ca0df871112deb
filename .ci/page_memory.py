"""Compares the map of memory on the page of tools/calculator with the registers that ./bench shows, at each size of memory."""
from collections.abc import Iterable

from judging import BENCH, run

from hp41.decks import MEMORIES
from hp41.desk import Desk
from hp41.memory import MAIN_START, STATUS, Memory
from looks import sized
from visits import Visit, row

# A cell of the map: its address, its digits, its kind, whether it is at the curtain, and whether the last command has changed it.
Cell = tuple[str, str, str, bool, bool]

# The commands whose result is compared, in memory of each size.
DECK = "key 1 2 STO 0 3\nsize 12\nprogram\nLBL \"AB\"\n\"TWELVE CHARS\"\nSTO 05\nGTO 01\nend\nkey 7 STO 1 1\n"

# What the map shows of each cell, in the order of Cell.
CELLS = """return [...document.querySelectorAll('#map .cell')].map((one) => {
  const [address, ...words] = one.getAttribute('aria-label').replace(/, changed$/, '').split(', ');
  return [address, words.at(-1), words.at(-2), one.classList.contains('curtain'), one.classList.contains('altered')];
}).sort()"""


def places_of(size: str) -> list[int]:
    """Returns the addresses of all registers, with this many registers of main memory."""
    return [*range(STATUS), *range(MAIN_START, MAIN_START + int(size))]


def registers_of(size: str, deck: str) -> dict[int, str]:
    """Returns the digits of all registers after a deck, as ./bench shows them, by their addresses."""
    places = places_of(size)
    asked = deck + "".join(f"show ram {at:03X}\n" for at in places)
    lines = run([BENCH, "run", "--memory", size, "-"], given=asked).stdout.decode().splitlines()
    return dict(zip(places, (line[4:] for line in lines[-len(places):])))


def kind_of(at: int, curtain: int, end: int) -> str:
    """Returns the kind of the register at an address, with the curtain and `.END.` at these ones."""
    if at < STATUS:
        return "status register"
    return "data register" if at >= curtain else "program" if at > end else "program with .END." if at == end else "free"


def map_by_bench(size: str, deck: str) -> list[list[object]]:
    """Returns the cells of the map after a deck, in the order of their addresses, as a script returns them."""
    now = registers_of(size, deck)
    before = registers_of(size, "".join(deck.splitlines(True)[:-1]))
    curtain, end = int(now[0xD][8:11], 16), int(now[0xD][11:], 16)
    cells: Iterable[Cell] = ((f"{at:03X}", digits if digits.strip("0") else "zero", kind_of(at, curtain, end), at == curtain,
                              digits != before[at]) for at, digits in now.items())
    return [list(cell) for cell in sorted(cells)]


# By requests alone.

def memories() -> None:
    """The map of memory has each register of each size, as ./bench shows it."""
    for size in MEMORIES:
        desk = Desk(size)
        desk.give(b"key 1 2 STO 0 3\nprogram\nLBL 01\nGTO 01\nend\n")
        while desk.queue:
            desk.go(1)
        desk.look()
        state = desk.state()
        registers = registers_of(size, desk.deck().decode())
        row(f"the map of {size} registers", state["memory"], [*registers.values()])
        c = registers[0xD]
        row(f"what register c says with {size} registers", state["divided"], [c[:3], "169", int(c[8:11], 16), int(c[11:], 16), True, True])
        row(f"the data registers of {size} registers", state["registers"][3], "01200000000001")
        desk.give(f"words 8\n130 {c[11:]} 270 04E 2F0 3E0\nend\ncall 8000\nstep 5\n".encode())
        while desk.queue:
            desk.go(1)
        row(f".END. is overwritten, with {size} registers", (desk.look()["divided"][4:], desk.bench.ask_all([b"step 2"])),
            ([True, False], [["! 15 MemoryLost"]]))
        desk.bench.close()
    row("a register c that does not divide memory", [*Memory(["0" * 14] * 336, 0x200).divided()], ["000", "000", 0, 0, False])


# In a browser.

def map_of_memory(visit: Visit) -> None:
    """The map has a cell for each register, which shows its digits; what the last step changed is marked."""
    browser = visit.browser
    # At this width a row of the map has 16 cells.
    sized(visit, 1366, 650)
    browser.run("by('memory-panel').open = true")
    browser.run("return give('key 1 2\\nkey STO 0 3\\n')")
    visit.row("the cells of the map", "return document.querySelectorAll('#map .cell').length", 336)
    kinds = "return ['status', 'data', 'program', 'end', 'free'].map((kind) => document.querySelectorAll(`#map .${kind}`).length)"
    visit.row("the kinds of its cells", kinds, [16, 100, 0, 1, 219])
    marked = "return [...document.querySelectorAll('#map .altered')].map((one) => one.getAttribute('aria-label'))"
    visit.row("what the last step changed", marked, ["19F, R03, data register, 01200000000001, changed"])
    browser.run("document.querySelector(\"#map [data-at='239']\").focus()")
    visit.row("the digits of a cell", "return by('cell').textContent.split(' before')[0]", "19F R03 data register 01200000000001 12")
    browser.type("ArrowUp")
    visit.row("the cell above it by an arrow", "return by('cell').textContent", "1AF R19 data register 00000000000000 0")
    visit.row("what register c says", "return by('divided').textContent",
              "1A7first statistics register169memory is sound19Cthe curtain, R0019Bthe register of .END.")
    browser.run("return give('words 8\\n368 3E0\\nend\\ncall 8000\\nstep 2\\n')")
    sound = "return [by('divided').textContent.includes('memory is not sound'), document.querySelectorAll('#map .unknown').length]"
    visit.row("a memory that is not sound", sound, [True, 320])
    browser.run("return give('reset\\nwords 9\\n130 19B 270 04E 2F0 3E0\\nend\\ncall 9000\\nstep 5\\n')")
    lost = "return [by('divided').textContent.includes('memory is not sound'), document.querySelector('#map .lost').getAttribute('aria-label')]"
    visit.row("a memory without .END.", lost, [True, "19B, program, whose .END. was overwritten, zero, changed"])
    data_registers(visit)
    browser.run("by('memory-panel').open = false")
    visit.anew()


def data_registers(visit: Visit) -> None:
    """With each number of data registers, the map has the cells that ./bench shows. Without one there is no R00."""
    for size in (0, 1, 100, 200, 319):
        visit.anew()
        deck = f"size {size}\nkey 7\nkey STO 0 0\n"
        visit.browser.run("by('memory-panel').open = true; return give(arguments[0])", deck)
        visit.row(f"the map with SIZE {size}", CELLS, map_by_bench("320", deck))
        visit.row(f"the curtain with SIZE {size}", "return by('divided').textContent.includes('the curtain, R00')", size > 0)


def sizes_in_browser(visit: Visit) -> None:
    """At each size of memory the map has the cells, curtain, program, `.END.`, free registers and register c that ./bench shows."""
    for size in MEMORIES:
        other = Visit(visit.browser, "--memory", size)
        one_size(other, size)
        visit.browser.open(visit.page.address)
        visit.quiet()
        other.page.end()
    visit.anew()


def one_size(visit: Visit, size: str) -> None:
    """Compares the map of a calculator with memory of this size, at the start and with a program."""
    browser = visit.browser
    sized(visit, 1366, 650)
    browser.run("by('memory-panel').open = true")
    visit.row(f"the map of {size} registers", CELLS, map_by_bench(size, ""))
    browser.run("return give(arguments[0])", DECK)
    visit.row(f"the map of {size} registers with a program", CELLS, map_by_bench(size, DECK))
    divided = "return [...by('divided').querySelectorAll('dt')].map((one) => one.textContent)"
    c = registers_of(size, DECK)[0xD]
    visit.row(f"register c, drawn, of {size} registers", divided, [c[:3], c[5:8], c[8:11], c[11:]])
    top = MAIN_START + int(size)
    browser.run("document.querySelector(arguments[0]).focus()", f"#map [data-at='{STATUS + int(size) - 1}']")
    visit.row(f"the last data register of {size}", "return by('cell').textContent.split(' before')[0]",
              f"{top - 1:03X} R11 data register 07000000000000 7")
    rows = "return [...document.querySelectorAll('#map .cells .place')].map((one) => one.textContent)"
    starts = [0, *range(MAIN_START, top, 16)]
    visit.row(f"the rows of the map of {size}", rows, [f"{at:03X}" for at in reversed(starts)])
    browser.run("by('memory-panel').open = false")
