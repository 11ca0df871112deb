"""What tools/module does with a linked module: writes its deck or its images, lists it, and prints what looks wrong in it."""
import os

from .decks import MEMORY, Failure, escape_output
from .files import put, why_no_folder
from .linking import LONG, Linked, Unit
from .rules import Lint, lines_of

PAGE_SIZE = 4096


def heading(unit: Unit) -> str:
    """Returns the heading of a bank."""
    return f"{unit.name}: page {unit.page}, bank {unit.bank.bank}, {os.path.basename(unit.whole.path)}"


def build(linked: Linked, out: str, images: str | None) -> int:
    """Writes the deck, or the images of all banks."""
    if images is None:
        from .calls import program_block
        project = linked.project
        size = f"size {project.size}\n" if project.size is not None else ""
        programs = "".join(map(program_block, project.programs))
        memory = "" if project.memory == MEMORY else f" --memory {project.memory}"
        head = f"# {project.name}: made by tools/module build. Run it with ./bench run{memory}\n"
        blocks = b"".join(f"# {unit.name}\n".encode() + unit.block() for unit in linked.units)
        put(head.encode() + blocks + (size + programs).encode("latin-1"), out)
        return 0
    if not os.path.isdir(images):
        raise Failure(f"--images {images}: {why_no_folder(images)}", 3)
    for unit in linked.units:
        words = unit.words + [0] * (PAGE_SIZE - len(unit.words))
        path = os.path.join(images, f"{unit.name}.rom")
        put(b"".join(word.to_bytes(2, "big") for word in words), path)
        print(f"{path}: page {unit.page}, bank {unit.bank.bank}")
    return 0


def target_of(linked: Linked, unit: Unit, at: int) -> str:
    """Returns the target of a long jump, if the line does not name a label of its own source."""
    line = unit.lines[at]
    if not LONG.match(line.code) or line.reference in unit.labels:
        return ""
    low, high = unit.words_of_line(at)
    address = low >> 2 | high >> 2 << 8
    bank = unit.bank.bank if address >> 12 == int(unit.page, 16) else None
    name = linked.name_of(address, bank)
    return f"  -> {address:04X}{f' {name}' if name else ''}"


def listing(linked: Linked) -> int:
    """Prints the listing of all banks, and their labels."""
    from .commands.list import rows_of
    escape_output()
    for unit in linked.units:
        print(f"{heading(unit)}\n")
        for at in range(len(unit.lines)):
            rows = rows_of(unit, at)
            for row, text in enumerate(rows):
                print(text + (target_of(linked, unit, at) if row == 0 else ""))
        print()
    width = max([len("Label"), *(len(linked.full(label)) for labels in linked.labels.values() for label in labels)])
    print(f"{'Label':<{width}}  Page  Address  Line")
    for name in sorted(linked.labels):
        for label in linked.labels[name]:
            page = f"{label.unit.page}{f' b{label.unit.bank.bank}' if linked.has_banks(label.address) else ''}"
            print(f"{linked.full(label):<{width}}  {page:<4}  {label.address:04X}     {os.path.basename(linked.where(label))}")
    return 0


def lint(linked: Linked) -> int:
    """Prints the findings of tools/lint in all banks. A label that another bank uses is used."""
    linked.share()
    found = lines_of(Lint(*(unit for unit in linked.units if unit.bank.source)))
    print(*found, sep="\n", end="\n" if found else "")
    return int(bool(found))
