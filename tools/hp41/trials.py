"""Tries claims on the bench: calls a function from states that meet its requirements, and compares what it leaves with what is claimed."""
from __future__ import annotations

import random
import re
import subprocess
from typing import Iterable, Iterator, NamedTuple, Sequence

from .claims import MEMORY, STACK, WIDE, AnyClaim, Atom, Claim, Contract, Decimal, Named, Others, Steps, Sum
from .decks import BENCH, NO_ANSWER, Failure, ended
from .codes import Code, known_at_start
from .constants import Field, constants_of, fields_of, registers_of
from .plugging import Plugged, active_bank
from .stubs import Stub, pages_of, stub_of

# How many states are tried, how many are drawn for each that meets the requirements, and the steps after which a call is ended. In the
# first states, one field has a chosen number; so many are drawn for each of these.
TRIALS, DRAWS, LIMIT = 150, 200, 100_000
CHOSEN, CHOSEN_DRAWS = 90, 20
SHOWN = ("A", "B", "C", "M", "N", "G", "T", "ST", "P", "Q", "PT", "CY", "MODE", "RAM")
LAST, BESIDE = 13, 16

# Addresses that are selected, and registers of memory that are filled if a claim says that others are as before.
SELECTED = (0x000, 0x003, 0x0C0, 0x0FA, 0x1FF, 0x3FF)
FILLED = ("000", "001", "002", "003", "004", "0C0")
OF_MEMORY = re.compile("[0-9A-F]{3}=[0-9A-F]{14}")
BASES = {"Hexadecimal": "HEX", "Decimal": "DEC"}


class Trial(NamedTuple):
    """A call: the registers before and after it, its steps, how it ended, as `run` prints it, and the registers that its instructions
    use."""
    before: dict[str, str]
    after: dict[str, str]
    steps: int
    reason: str
    used: frozenset[str] = frozenset()

    def begin(self, names: Iterable[str]) -> str:
        """Returns the registers before the call as text: those of some names, and those that the instructions use."""
        wanted = {*names, *self.used}
        return told(self.before, [name for name in SHOWN if name in wanted] + sorted(name for name in wanted if name[0].isdigit()))


class Counterexample(NamedTuple):
    """A claim that is false: its source line, its text, and a state from which it is false."""
    line: int
    claim: str
    why: str


def register_of(atom: Atom) -> str:
    """Returns the name of a register in a state: that of the processor, or the address of one of memory."""
    return atom.name if atom.address is None else f"{atom.address:03X}"


def value_in(atom: Atom, cpu: dict[str, str]) -> int:
    """Returns the value of an atom in the registers that `show cpu` and `show ram` print."""
    if atom.lo is not None:
        digits = cpu[register_of(atom)][LAST - (atom.hi or 0):LAST - atom.lo + 1]
        return sum(int(digit, 16) * atom.base ** place for place, digit in enumerate(reversed(digits)))
    if atom.name == "ST":
        return int(cpu["ST"], 16) & 0xFF
    if atom.name.startswith("S"):
        return int(cpu["ST"], 16) >> int(atom.name[1:]) & 1
    return int(cpu[atom.name], 16)


def total(one: Sum, before: dict[str, str], after: dict[str, str]) -> int:
    """Returns the value of a sum."""
    return one.constant + sum(many * value_in(atom, before if atom.old else after) for many, atom in one.parts)


def is_true(claim: AnyClaim, before: dict[str, str], after: dict[str, str]) -> bool:
    """Returns whether a claim is true after a call."""
    if isinstance(claim, Named):
        name = f"BANK{claim.page:X}" if claim.name == "BANK" else claim.name
        return after.get(name, claim.value) == claim.value
    if isinstance(claim, Decimal):
        state = before if claim.atom.old else after
        return state[register_of(claim.atom)][LAST - (claim.atom.hi or 0):LAST - (claim.atom.lo or 0) + 1].isdigit()
    if isinstance(claim, Others):
        return not changed_registers(claim, before, after)
    left, right = total(claim.left, before, after), total(claim.right, before, after)
    return {"=": left == right, "<>": left != right, "<": left < right, "<=": left <= right, ">": left > right,
            ">=": left >= right}[claim.relation]


def changed_registers(claim: Others, before: dict[str, str], after: dict[str, str]) -> list[str]:
    """Returns the registers of memory, as far as they are known, that a claim says to be as before, and that are not."""
    others = {f"{address:03X}" for address in claim.addresses}
    return [name for name in after if name[0].isdigit() and name not in others and after[name] != before[name]]


class States:
    """States that meet the requirements of a contract, first those in which a field has a number of the claims or the instructions, or the
    one below or above it."""

    def __init__(self, contract: Contract, constants: Sequence[int] = (), fields: Sequence[Field] = (), seed: int = 41) -> None:
        """Reads the registers and the numbers in a contract. `constants` and `fields` are the numbers and the fields in the instructions of
        the function. The seed decides the random states."""
        self.contract, self.random, self.selecting = contract, random.Random(seed), random.Random(seed)
        known = known_at_start(contract)
        self.fixed = {"MODE": BASES[known["base"]]}
        self.fixed.update((name, f"{int(known[name.lower()]):X}") for name in ("P", "Q") if name.lower() in known)
        self.fixed.update({"PT": known["active"]} if "active" in known else {})
        self.fixed.update({"RAM": f"{int(known['selected']):03X}"} if "selected" in known else {})
        self.decimals = [claim.atom for claim in contract.requires if isinstance(claim, Decimal)]
        everything = [*contract.requires, *contract.ensures]
        claims = [claim for claim in everything if isinstance(claim, Claim)]
        spans = [one for claim in everything for one in claim.atoms() if one.lo is not None]
        self.spans = sorted({(register_of(one), one.lo or 0, one.hi or 0) for one in spans})
        others = FILLED if any(isinstance(claim, Others) for claim in everything) else ()
        self.memory = sorted({name for name, _, _ in self.spans if name[0].isdigit()} | set(others))
        self.fields = [one for one in fields if one not in self.spans]
        is_decimal = any(one.base == 10 for claim in everything for one in claim.atoms())
        self.bounds = bounds_of([*numbers_in(claims), *constants], is_decimal)
        self.chosen = self.choices(list(dict.fromkeys([*bounds_of(constants, is_decimal), *self.bounds])))

    def number(self, width: int) -> int:
        """Returns a number of some digits, often one at a bound."""
        most = (1 << 4 * width) - 1
        few = [*(number for number in self.bounds if number <= most), 0, 1, most, most - 1, 1 << 4 * (width - 1), int("9" * width, 16)]
        return self.random.choice(few) if self.random.random() < 0.6 else self.random.randint(0, most)

    def choices(self, numbers: Sequence[int]) -> list[tuple[Field, int]]:
        """Returns fields with a number of some that fits, at most so many as are tried."""
        found = [(field, number) for number in numbers for field in [*self.spans, *self.fields] if number < 16 ** (field[2] + 1 - field[1])]
        return found[::max(1, -(-len(found) // CHOSEN))]

    def draw(self, chosen: tuple[Field, int] | None = None) -> dict[str, str]:
        """Returns a state that may not meet the requirements. `chosen` is a field with its number."""
        values = {name: self.number(14) if self.random.random() < 0.3 else self.random.getrandbits(56) for name in (*WIDE, *self.memory)}
        last = 0
        for field in [*(one for one in self.fields if self.random.random() < 0.5), *self.spans, *([chosen[0]] if chosen else [])]:
            name, lo, hi = field
            width = hi + 1 - lo
            mask = 16 ** width - 1 << 4 * lo
            number = last if last <= mask >> 4 * lo and self.random.random() < 0.1 else self.number(width)
            last = chosen[1] if chosen and field == chosen[0] else number
            values[name] = values[name] & ~mask | last << 4 * lo
        found = {name: f"{value:014X}" for name, value in values.items()}
        found.update(G=f"{self.number(2):02X}", ST=f"{self.random.getrandbits(14):04X}", P=f"{self.random.randrange(14):X}",
                     Q=f"{self.random.randrange(14):X}", PT=self.random.choice("PQ"), T=f"{self.number(2):02X}", CY="0",
                     RAM=f"{self.selecting.choice(SELECTED):03X}")
        self.narrow(found)
        for one in self.decimals:
            name, lo, hi = register_of(one), LAST - (one.hi or 0), LAST - (one.lo or 0) + 1
            digits = "".join(digit if digit.isdigit() else self.random.choice("0999") for digit in found[name][lo:hi])
            found[name] = found[name][:lo] + digits + found[name][hi:]
        return {**found, **self.fixed}

    def narrow(self, found: dict[str, str]) -> None:
        """Gives numbers that a requirement compares with a constant a value that meets it."""
        for claim in self.contract.requires:
            if not isinstance(claim, Claim) or len(claim.left.parts) != 1 or claim.right.parts or claim.left.parts[0][0] != 1:
                continue
            atom, limit = claim.left.parts[0][1], claim.right.constant - claim.left.constant
            if atom.lo is None or atom.base != 16:
                continue
            most = 16 ** ((atom.hi or 0) + 1 - atom.lo) - 1
            low, high = {"=": (limit, limit), "<=": (0, limit), "<": (0, limit - 1), ">=": (limit, most), ">": (limit + 1, most),
                         "<>": (0, most)}[claim.relation]
            if low <= min(high, most) and not is_true(claim, found, found):
                chosen = self.random.choice([low, min(high, most), self.random.randint(low, min(high, most))])
                digits = int(found[register_of(atom)], 16) & ~(most << 4 * atom.lo) | chosen << 4 * atom.lo
                found[register_of(atom)] = f"{digits:014X}"

    def all(self) -> Iterator[dict[str, str]]:
        """Yields states that meet the requirements."""
        chosen = list(self.chosen)
        for _ in range(TRIALS):
            found = self.meeting(chosen.pop(0), CHOSEN_DRAWS) if chosen else None
            found = found or self.meeting(None, DRAWS)
            if not found:
                return
            yield found

    def meeting(self, chosen: tuple[Field, int] | None, draws: int) -> dict[str, str] | None:
        """Returns a state that meets the requirements; None if none of those that are drawn does."""
        states = (self.draw(chosen) for _ in range(draws))
        return next((state for state in states if all(is_true(claim, state, state) for claim in self.contract.requires)), None)


def numbers_in(claims: Iterable[Claim]) -> set[int]:
    """Returns the numbers in some claims, also those of the registers whose multiples are these numbers."""
    found = set()
    for claim in claims:
        total = claim.left.plus(claim.right.times(-1))
        found |= {claim.left.constant, claim.right.constant} | {abs(total.constant // many) for many, _ in total.parts}
    return found


def bounds_of(numbers: Iterable[int], is_decimal: bool) -> list[int]:
    """Returns some numbers, those below and above them, and for decimal numbers those whose digits are theirs."""
    found = {max(0, number + more) for number in numbers for more in (-1, 0, 1)}
    return sorted(found | ({int(str(number), 16) for number in found} if is_decimal else set()))


def stub_before(state: dict[str, str], entry: int) -> Stub:
    """Returns the words that lead to a state, and then continue at an address."""
    cpu = {("cpu.T" if name == "T" else name): value for name, value in state.items() if name != "CY" and not name[0].isdigit()}
    memory = {int(name, 16): value for name, value in state.items() if name[0].isdigit()}
    return stub_of(memory, cpu, entry)


def run_all(code: Code, label: str, states: list[dict[str, str]]) -> list[Trial]:
    """Returns what calls of a function do from some states."""
    free = code.free or ("F" if code.banks[0].page != 0xF else "E")
    plugged = Plugged(code, label)
    entry = plugged.entry
    if entry is None:
        return []
    deck = plugged.text
    shown = "show cpu\n" + "".join(f"show ram {name}\n" for name in shown_memory(code, label)) + plugged.shown
    for page in pages_of(stub_before(state, entry) for state in states):
        deck += f"unplug {free}\nwords {free}\n{page.text}end\n"
        for place, stub in page.stubs:
            deck += f"reset\ncall {free}{place:03X}\nstep {stub.steps + plugged.steps}\n{shown}run {LIMIT}\n{shown}"
    ran = subprocess.run([BENCH, "run", "-"], input=deck.encode(), stdout=subprocess.PIPE, check=False)
    if ran.returncode == NO_ANSWER:
        raise Failure("./bench gave no answer: see its message above", NO_ANSWER)
    if ran.returncode not in (0, 1):
        raise Failure(ended(ran.returncode, "when it was asked to try the claims"), 3)
    lines = [line for line in ran.stdout.decode().splitlines() if not line.startswith("! 03 ")]
    return list(trials_of(lines))


def shown_memory(code: Code, label: str) -> list[str]:
    """Returns the addresses of the registers of memory that are compared: those in claims, and if others are claimed to be as before, the
    status registers and some of main memory."""
    contract = code.contracts[label]
    claims = [*contract.requires, *contract.ensures]
    found = {one.address for claim in claims for one in claim.atoms() if one.address is not None}
    if any(isinstance(claim, Others) for claim in claims):
        found |= {address for first, last in MEMORY for address in (*range(first, first + BESIDE), last)}
        found |= {min(max(address + more, MEMORY[0][0]), MEMORY[-1][1]) for address in found for more in (-1, 1)}
    return [f"{address:03X}" for address in sorted(found) if any(first <= address <= last for first, last in MEMORY)]


def trials_of(lines: list[str]) -> Iterator[Trial]:
    """Yields the calls whose replies are in some lines."""
    at = next((number for number, line in enumerate(lines) if line.startswith("A=")), len(lines))
    while at < len(lines):
        before, at = registers(lines, at)
        words = lines[at].split()
        reason, at = lines[at], at + 1
        if at < len(lines) and lines[at].startswith("! "):
            reason, at = f"{lines[at]}", at + 1
        after, at = registers(lines, at)
        yield Trial(before, after, int(words[1]) if words[:1] == ["ran"] else -1, reason)
        while at < len(lines) and not lines[at].startswith("A="):
            at += 1


def registers(lines: list[str], at: int) -> tuple[dict[str, str], int]:
    """Returns the registers in the five lines of `show cpu` and the lines of `show ram`, the active banks, and the line after them."""
    found: dict[str, str] = {}
    for part in " ".join(lines[at:at + 4]).split():
        name, _, value = part.partition("=")
        found[name] = value
    at += 5
    while at < len(lines) and OF_MEMORY.fullmatch(lines[at]):
        name, _, found[lines[at][:3]] = lines[at].partition("=")
        at += 1
    while at < len(lines) and (bank := active_bank(lines[at])):
        found[bank[0]] = bank[1]
        at += 1
    return found, at


def told(state: dict[str, str], names: Iterable[str]) -> str:
    """Returns some registers of a state as text."""
    by_address = {f"{address:03X}": name for name, address in STACK.items()}
    return " ".join(f"{by_address.get(name, f'REG[{name}]' if name[0].isdigit() else name)}={state[name]}" for name in names)


def named_in(contract: Contract, claim: AnyClaim | Steps) -> list[str]:
    """Returns the registers that a counterexample shows: those of the claim and of the requirements."""
    claims = [one for one in [*contract.requires, claim] if not isinstance(one, Steps)]
    atoms = [one for each in claims for one in each.atoms()]
    atoms += claim.count.atoms() if isinstance(claim, Steps) else []
    names = {"ST" if one.name[0] == "S" and one.lo is None else register_of(one) for one in atoms}
    names |= {each.name for each in claims if isinstance(each, Named)}
    names |= {"C"} if not names and not isinstance(claim, Others) else set()
    return [name for name in SHOWN if name in names] + sorted(name for name in names if name[0].isdigit())


def judged(contract: Contract, trial: Trial) -> Counterexample | None:
    """Returns the first claim that a call shows to be false."""
    if not trial.reason.endswith(" Idle"):
        is_refused = trial.reason.startswith("! ")
        line = contract.steps.line if contract.steps else contract.line
        why = f"it is refused: {trial.reason}" if is_refused else f"it has not returned after {LIMIT:,} steps"
        return Counterexample(line, "returns", f"from {told(trial.before, SHOWN)} {why}")
    claimed = {f"BANK{claim.page:X}" for claim in contract.ensures if isinstance(claim, Named)}
    changed = [name for name in trial.before if name.startswith("BANK") and name not in claimed and trial.after[name] != trial.before[name]]
    if changed:
        return other_bank(contract, trial, changed[0][-1])
    for claim in contract.ensures:
        if not is_true(claim, trial.before, trial.after):
            if isinstance(claim, Named) and claim.name == "BANK":
                return other_bank(contract, trial, f"{claim.page:X}", claim)
            names = named_in(contract, claim)
            if isinstance(claim, Others):
                names = [*(name for name in names if not name[0].isdigit()), *changed_registers(claim, trial.before, trial.after)[:1]]
            return Counterexample(claim.line, claim.text, f"from {trial.begin(names)} it leaves {told(trial.after, names)}"
                                                          f"{sides(claim, trial)}")
    if contract.steps:
        count = total(contract.steps.count, trial.before, trial.before)
        if trial.steps > count or contract.steps.is_exact and trial.steps != count:
            names = named_in(contract, contract.steps)
            most = f"{'' if contract.steps.is_exact else 'at most '}{count}"
            return Counterexample(contract.steps.line, contract.steps.text,
                                  f"from {trial.begin(names)} it takes {trial.steps} "
                                  f"step{'' if trial.steps == 1 else 's'}, expected {most}")
    return None


def other_bank(contract: Contract, trial: Trial, page: str, claim: Named | None = None) -> Counterexample:
    """Returns the counterexample that another bank of a page is active after a call than is claimed, or than before it."""
    now, before = trial.after[f"BANK{page}"], trial.before[f"BANK{page}"]
    expected = f"bank {before}: put ENBANK{before} before RTN, or claim `BANK = {now}`" if claim is None else f"bank {claim.value}"
    names = [name for name in named_in(contract, claim) if name in SHOWN] if claim else ["C"]
    return Counterexample(claim.line if claim else contract.line, claim.text if claim else "returns",
                          f"from {told(trial.before, names or ['C'])} it returns with bank {now} of page {page} active, expected {expected}")


def sides(claim: AnyClaim, trial: Trial) -> str:
    """Returns the values of both sides of a comparison as text."""
    if not isinstance(claim, Claim):
        return ""
    left, right = total(claim.left, trial.before, trial.after), total(claim.right, trial.before, trial.after)
    return f": the left side is {left:X}, the right side is {right:X}"


def counterexamples(code: Code, label: str) -> tuple[int, list[Counterexample]]:
    """Returns how many calls were tried, and a counterexample for each claim that is false in one of them, the simplest one first
    found."""
    contract = code.contracts[label]
    states = list(States(contract, constants_of(code, label), fields_of(code, label)).all())
    if not states:
        return 0, []
    found: dict[tuple[int, str], Counterexample] = {}
    trials = run_all(code, label, states)
    used = frozenset(registers_of(code, label))
    for trial in trials:
        one = judged(contract, trial._replace(used=used))
        if one:
            found.setdefault((one.line, one.claim), one)
    return len(trials), sorted(found.values())
