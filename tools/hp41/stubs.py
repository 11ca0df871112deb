"""Words that set registers before a test calls its function. They are put into a free page and end with a jump to the function, so that
memory, the processor's registers and the pointers have given values, or junk."""
from __future__ import annotations

from functools import lru_cache
from typing import Iterable, Iterator, NamedTuple

from .settings import DATA_NAME, DIGITS, FLAG_NAME, MEMORY_NAME, STACK, WIDE, Setting

ZERO = "0" * DIGITS
CLEAR = (0x384, 0x304, 0x204, 0x004, 0x044, 0x084, 0x144, 0x284, 0x104, 0x244, 0x0C4, 0x184, 0x344, 0x2C4)
DIGIT = (0x010, 0x050, 0x090, 0x0D0, 0x110, 0x150, 0x190, 0x1D0, 0x210, 0x250, 0x290, 0x2D0, 0x310, 0x350, 0x390, 0x3D0)
C_IS_0, LDI, RAM_SLCT, WRIT_DATA = 0x04E, 0x130, 0x270, 0x2F0
M_IS_C, N_IS_C, G_IS_C, ST_IS_C, T_IS_ST, B_AND_C, A_IS_C = 0x158, 0x070, 0x058, 0x358, 0x258, 0x0EE, 0x10E
SLCT_P, SLCT_Q, SETDEC = 0x0A0, 0x0E0, 0x2A0
IN_A_LINE, PAGE_SIZE = 40, 4096

# Register d with its flags when the calculator starts, the registers of ALPHA, and the first address of main memory.
FLAGS_AT, FLAGS_AT_START = 0x00E, 0x0000002C048000
ALPHA_AT, ALPHA_BYTES = (0x008, 0x007, 0x006, 0x005), 24
MAIN_START, MOST_DATA, FEW_DATA = 0xC0, 100, 17

# Registers that a test fills with junk, if it does not set them, in the order in which they are named.
JUNK = ("A", "B", "C", "M", "N", "G", "ST", "P", "Q", "cpu.T", "RAM")


def select(place: int) -> int:
    """Returns the word `R= n`."""
    return CLEAR[place] + 0x018


def constant(digits: str) -> list[int]:
    """Returns words that put 14 digits into C. They change the active pointer, P."""
    kept = digits.rstrip("0")
    return [C_IS_0, select(13), *(DIGIT[int(digit, 16)] for digit in kept)] if kept else [C_IS_0]


class Sizes(NamedTuple):
    """The sizes of a calculator: the registers of its memory, and the number of data registers."""
    memory: int
    data: int

    def address(self, number: int) -> int:
        """Returns the address of a data register."""
        return MAIN_START + self.memory - self.data + number


def sizes_of(memory: str, size: int | None) -> Sizes:
    """Returns the sizes of a calculator; without a size they are those at the start."""
    return Sizes(int(memory), size if size is not None else MOST_DATA if int(memory) > MOST_DATA else FEW_DATA)


def memory_of(before: list[Setting], sizes: Sizes) -> dict[int, str]:
    """Returns the digits of the registers of memory that some settings set, by their addresses."""
    found, flags = {}, None
    for name, _, value in before:
        data = DATA_NAME.fullmatch(name)
        if name in STACK:
            found[STACK[name]] = value
        elif data:
            found[sizes.address(int(data[1]))] = value
        elif MEMORY_NAME.fullmatch(name):
            found[int(name, 16)] = value
        elif FLAG_NAME.fullmatch(name):
            bit = 1 << 55 - int(name[1:])
            flags = (FLAGS_AT_START if flags is None else flags) & ~bit | (bit if value == "1" else 0)
        elif name == "ALPHA":
            data_bytes = value.encode().rjust(ALPHA_BYTES + 4, b"\0")
            found.update((at, data_bytes[7 * part:7 * part + 7].hex().upper()) for part, at in enumerate(ALPHA_AT))
    if flags is not None:
        found[FLAGS_AT] = f"{flags:014X}"
    return found


class Stub(NamedTuple):
    """Words that set registers, as lines of a block, with their number, and the number of steps that they take."""
    text: str
    words: int
    steps: int


def stub_of_words(words: list[int], seconds: int = 0) -> Stub:
    """Returns some words as a stub. `seconds` is how many of them are the second words of LDI, and no steps of their own."""
    rows = (" ".join(f"{word:X}" for word in words[at:at + IN_A_LINE]) for at in range(0, len(words), IN_A_LINE))
    return Stub("".join(f"{row}\n" for row in rows), len(words), len(words) - seconds)


@lru_cache(maxsize=4096)
def setting_memory(memory: tuple[tuple[int, str], ...]) -> Stub:
    """Returns words that set registers of memory."""
    words = [word for address, digits in memory for word in (LDI, address, RAM_SLCT, *constant(digits), WRIT_DATA)]
    return stub_of_words(words, len(memory))


@lru_cache(maxsize=4096)
def setting_cpu(cpu: tuple[tuple[str, str], ...], has_memory: bool) -> Stub:
    """Returns words that set registers of the processor. Those that are not named become zero."""
    given, words, seconds = dict(cpu), [], 0
    for name, copy in (("M", M_IS_C), ("N", N_IS_C)):
        if given.get(name, ZERO) != ZERO:
            words += [*constant(given[name]), copy]
    if "G" in given:
        words += [LDI, int(given["G"], 16), select(0), G_IS_C]
    if "cpu.T" in given:
        words += [LDI, int(given["cpu.T"], 16), ST_IS_C, T_IS_ST]
    if "cpu.T" in given or "ST" in given:
        status = int(given.get("ST", "0"), 16)
        words += [LDI, status & 0xFF, ST_IS_C, *(CLEAR[bit] + 0x004 for bit in range(8, 14) if status >> bit & 1)]
    if has_memory or "RAM" in given:
        words += [LDI, int(given.get("RAM", "0"), 16), RAM_SLCT]
    seconds = ("G" in given) + ("cpu.T" in given) + ("cpu.T" in given or "ST" in given) + (has_memory or "RAM" in given)
    for name, copy in (("B", B_AND_C), ("A", A_IS_C)):
        if given.get(name, ZERO) != ZERO:
            words += [*constant(given[name]), copy]
    words += constant(given.get("C", ZERO))
    if "Q" in given:
        words += [SLCT_Q, select(int(given["Q"], 16)), SLCT_P]
    words.append(select(int(given.get("P", "0"), 16)))
    words += [SLCT_Q] * (given.get("PT") == "Q") + [SETDEC] * (given.get("MODE") == "DEC")
    return stub_of_words(words, seconds)


def stub_of(memory: dict[int, str], cpu: dict[str, str], target: int | None) -> Stub:
    """Returns the words that set registers and then continue at the target, or return if there is no target."""
    first, second = setting_memory(tuple(memory.items())), setting_cpu(tuple(cpu.items()), bool(memory))
    last = f"{(target & 0xFF) << 2 | 1:X} {(target >> 8) << 2 | 2:X}\n" if target is not None else "3E0\n"
    return Stub(first.text + second.text + last, first.words + second.words + len(last.split()), first.steps + second.steps + 1)


class StubPage(NamedTuple):
    """Several stubs in a page: the words as lines of a block, and the stubs, each with its place in the page."""
    text: str
    stubs: list[tuple[int, Stub]]


def pages_of(stubs: Iterable[Stub], first: int = 0) -> Iterator[StubPage]:
    """Yields as many stubs as fit into a page, from a place on, until all are in one. The words before are 000. To plug a page takes the
    bench longer than to call a function in it."""
    found: list[tuple[int, Stub]] = []
    text, place = "0\n" * first, first
    for stub in stubs:
        if place + stub.words > PAGE_SIZE:
            yield StubPage(text, found)
            text, found, place = "0\n" * first, [], first
        text += stub.text
        found.append((place, stub))
        place += stub.words
    if found:
        yield StubPage(text, found)


def junk_of(seed: int) -> dict[str, str]:
    """Returns values of the processor's registers that depend only on the seed."""
    state = (seed * 2654435761 + 0x9E3779B9) & 0xFFFFFFFF or 1

    def below(limit: int) -> int:
        """Returns the next pseudorandom number below a limit."""
        nonlocal state
        state ^= state << 13 & 0xFFFFFFFF
        state ^= state >> 17
        state ^= state << 5 & 0xFFFFFFFF
        return (state >> 3) % limit

    found = {name: "".join(f"{below(9) + 1:X}" if below(4) else f"{below(6) + 10:X}" for _ in range(DIGITS)) for name in WIDE}
    found.update(G=f"{below(255) + 1:02X}", ST=f"{below(0x3FFF) + 1:04X}", P=f"{below(13) + 1:X}", Q=f"{below(13) + 1:X}")
    found.update({"cpu.T": f"{below(255) + 1:02X}", "RAM": f"{0x0C0 + below(0x40):03X}"})
    return found
