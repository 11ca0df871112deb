"""What the trace of the page of tools/calculator says about changes of program lines and of registers of memory, from what ./bench shows
after a step and before it."""
from collections.abc import Iterator

from hp41.memory import MAIN_START, STATUS, Memory

NAMES = [*"TZYXLMNOPQ", "⊢", *"abcde"]

# What ./bench shows: the lines that its views print, and the digits of all registers.
State = tuple[dict[str, list[str]], list[str]]


def numbers_of(lines: list[str]) -> list[str]:
    """Returns the number of each line in its program."""
    found, number = [], 0
    for line in lines:
        number += 1
        found.append(f"{number:02d}")
        if line[5:] in ("END", ".END."):
            number = 0
    return found


def next_line(views: dict[str, list[str]]) -> str:
    """Returns the position of the line that is executed next; an empty text if there is none."""
    mode, place = views["pos"][0].split()
    return "" if mode == "Micro" or place[0] == "P" else next((line[:4] for line in views["lines"] if line[:4] >= place), "")


def places_of(longer: list[str], shorter: list[str]) -> list[int]:
    """Returns the places at which lines can be removed so that the shorter list is left, the last place first."""
    count = len(longer) - len(shorter)
    return [at for at in range(len(shorter), -1, -1) if longer[:at] + longer[at + count:] == shorter]


def lines_changed(after: State, before: State) -> Iterator[str]:
    """Yields what a step has changed of program lines, as one text; nothing if it has changed none."""
    (now, _), (old, _) = after, before
    new, was = [line[5:] for line in now["lines"]], [line[5:] for line in old["lines"]]
    if new == was:
        return
    is_added = len(new) > len(was)
    longer, shorter, views = (new, was, now) if is_added else (was, new, old)
    count, places = len(longer) - len(shorter), places_of(longer, shorter)
    if not new or not was:
        yield f"program: {'its lines can be read again' if new else 'no line can be read'}"
    elif count and places:
        # Of equal lines side by side, the one that the calculator shows after its insertion, or before its deletion.
        shown = [at for at in places if views["lines"][at + (count - 1 if is_added else 0)][:4] == next_line(views)]
        at = (shown or places)[0]
        number, what = numbers_of(views["lines"])[at], "inserted" if is_added else "deleted"
        yield f"program: line {number} {what}: {longer[at]}" if count == 1 else f"program: {count} lines {what}, from line {number} on"
    else:
        first = next(at for at in range(len(was)) if new[:at + 1] != was[:at + 1])
        last = next(at for at in range(len(was)) if at == len(shorter) - first or new[len(new) - at - 1:] != was[len(was) - at - 1:])
        lost, added, number = len(was) - first - last, len(new) - first - last, numbers_of(old["lines"])[first]
        yield f"program: line {number}: {was[first]} → {new[first]}" if lost == added == 1 else \
            f"program: {lost} line{'s' * (lost > 1)} replaced by {added}, from line {number} on"


def memory_changed(after: State, before: State, top: int) -> Iterator[str]:
    """Yields what a step has changed of the registers of memory that no other text names; `top` is the address after the last one."""
    (now, memory), (old, was) = after, before
    named = "TZYXLd" if now["alpha"] == old["alpha"] else "TZYXLMNOPd"
    for name, new, other in zip(NAMES, memory, was):
        if new != other and name not in named:
            yield f"{name} {other} → {new}"
    is_same_program = [line[5:] for line in now["lines"]] == [line[5:] for line in old["lines"]]
    if not is_same_program or memory[NAMES.index("c")] != was[NAMES.index("c")]:
        return
    end = len(memory) - len(Memory(memory, top).data_registers())
    changed = [(f"{MAIN_START + at - STATUS:03X}", was[at], memory[at]) for at in range(STATUS, end) if memory[at] != was[at]]
    if len(changed) == 1:
        yield "{} {} → {}".format(*changed[0])
    elif changed:
        yield f"{len(changed)} registers from {changed[0][0]} on"
