"""What is known of the registers of a function: facts about the numbers in them, which are found when they are wanted."""
from __future__ import annotations

import re
from typing import Iterable, Iterator

from .decimals import Decimals
from .linear import row
from .symbols import (PLACES, REGISTERS, Fact, Form, Key, Node, Ram, Span, Value, added_form, argument, form_text, keys_in, number,
                      place_of, register_at, status_bit, with_status)

# Names that a node introduces.
NAMES = re.compile(r"\b[a-z]+_[0-9]+\b")
SIGNS = {"=": "≡", "<>": "≢", "<": "<", "<=": "≤"}
FEWEST, STATUS_END, MAIN_START, MAIN_END = 64, 0x010, 0x0C0, 0x200


def given_digit(fact: Fact, name: str, place: int) -> int | None:
    """Returns a digit of a register if a fact says that a number of its digits is a constant."""
    for one in fact.rows:
        key = next(iter(one.factors), None)
        if one.is_equal and len(one.factors) == 1 and isinstance(key, Span) and key.base == 16 and key.name == name \
                and key.lo <= place <= key.hi:
            return int(-one.constant / one.factors[key]) >> 4 * (place - key.lo) & 15
    return None


class Knowledge:
    """The registers of a function, and the facts about their numbers."""

    def __init__(self) -> None:
        """Begins without registers."""
        self.values: dict[str, Value] = {}
        self.rams: dict[str, Ram] = {}
        self.root: Node | None = None
        self.cuts = {0, PLACES}
        self.found: dict[Key, list[Fact]] = {}
        self.others: dict[str, list[Fact]] = {}
        self.carries: dict[str, Value] = {}
        self.owners: dict[str, Node] = {}
        self.count = 0
        self.is_decimal = self.uses_memory = False
        self.highest = MAIN_START + FEWEST - 1
        self.decimals = Decimals(self)

    def add(self, value: Value) -> None:
        """Adds a register, and separates the places on which its word works."""
        self.values[value.name] = value
        if value.carry:
            self.carries[f"carry_digit {value.carry}"] = value
        if value.kind in ("right", "left", "rotated", "and", "or"):
            self.cuts.update(range(PLACES + 1))
        self.cut(value.lo, value.hi)

    def cut(self, lo: int, hi: int) -> None:
        """Separates some places from those before and after them."""
        self.cuts.update((lo, hi + 1))

    def settle(self) -> None:
        """Separates the digits of a loaded word if others separate some of them, or if they form a decimal number."""
        if (self.cuts & {1, 2} or self.is_decimal) and any(value.kind == "word" for value in self.values.values()):
            self.cuts.update((0, 1, 2, 3))

    def forget(self) -> None:
        """Forgets the facts that were found."""
        self.found.clear()
        self.decimals.found.clear()
        for value in self.values.values():
            value.is_ruled = False

    def value(self, name: str) -> Value:
        """Returns a register."""
        place = place_of(name)
        if name not in self.values and place:
            self.values[name] = self.remembered(name, *place)
        return self.values[name]

    def size(self, value: Value) -> str:
        """Returns the proof that the register before a word has 14 digits."""
        return f"{argument(self.value(value.into).is_register)}.size"

    # Memory.

    def exists(self, ram: Ram, address: int) -> str:
        """Returns the proof that a register of memory exists."""
        kind, more = ("status_there", "") if address < STATUS_END else ("main_there", " (omega arith)")
        return f"({kind} {REGISTERS} {ram.name} {address:#05x} {ram.has} (omega arith){more})"

    def use(self, address: int) -> bool:
        """Notes that a register of memory is used. Returns whether its address exists."""
        self.uses_memory = True
        self.highest = max(self.highest, address)
        return address < STATUS_END or MAIN_START <= address < MAIN_END

    def remembered(self, name: str, memory: str, address: int) -> Value:
        """Returns a register of memory as a value: it is as it was written, as before a write to another address, or unknown."""
        ram = self.rams[memory]
        whole = f"(held_at {memory} {address:#05x} {ram.owner.whole}.memory)"
        if ram.kind == "write" and ram.address == address:
            before = self.rams[ram.before]
            return Value(name, "same", ram.owner, whole, x=ram.register, rule=f"reads {before.name} {address:#05x} "
                                                                            f"{argument(ram.register)} {self.exists(before, address)}")
        apart = "(λ same. omega (arith, same))"
        if ram.kind == "write":
            rule = f"keeps {ram.before} {ram.address:#05x} {address:#05x} {argument(ram.register)} {apart}"
            return Value(name, "same", ram.owner, whole, x=register_at(ram.before, address), rule=rule)
        if ram.others is not None and address not in ram.others:
            rule = " ".join([ram.proof, f"{address:#05x}", *(apart for _ in ram.others)])
            return Value(name, "same", ram.owner, whole, x=register_at(ram.before, address), rule=rule)
        return Value(name, "start", ram.owner, whole)

    def others_as_before(self, memory: str, goal: str, addresses: tuple[int, ...]) -> str | int | None:
        """Returns the proof that all registers of memory but some are as before. If another one may have changed, returns its address,
        or None if it is not known which."""
        parts = []
        while memory != goal:
            ram = self.rams[memory]
            changed = (ram.address,) if ram.kind == "write" else ram.others
            if changed is None:
                return None
            if not set(changed) <= set(addresses):
                return min(set(changed) - set(addresses))
            apart = [f"apart_{addresses.index(one) + 1}" for one in changed]
            parts.append(f"keeps {ram.before} {ram.address:#05x} address {argument(ram.register)} {apart[0]}" if ram.kind == "write" else
                         " ".join([ram.proof, "address", *apart]))
            memory = ram.before
        variables = " ".join(["address", *(f"apart_{at + 1}" for at in range(len(addresses)))])
        return f"λ {variables}. {' ∙ '.join(parts) or 'refl'}"

    # Constants.

    def digit(self, name: str, place: int, passed: list[Fact]) -> int | None:
        """Returns a digit of a register if it is known."""
        if name == "zeros":
            return 0
        given = next((found for found in (given_digit(fact, name, place) for fact in passed) if found is not None), None)
        value = self.value(name)
        if given is not None or value.kind in ("start", "call"):
            return given
        if value.kind == "same":
            return self.digit(value.x, place, passed)
        if value.kind == "rotated":
            return self.digit(value.into, (place + int(value.digits[0])) % PLACES, passed)
        if not value.lo <= place <= value.hi:
            return self.digit(value.into, place, passed)
        if value.kind == "copy":
            return self.digit(value.x, place, passed)
        if value.kind in ("digit", "word"):
            digit = value.digits[place - value.lo]
            return digit if isinstance(digit, int) else None
        if value.kind in ("right", "left"):
            end, step = (value.hi, 1) if value.kind == "right" else (value.lo, -1)
            return 0 if place == end else self.digit(value.into, place + step, passed)
        return self.computed(value, place, passed)

    def computed(self, value: Value, place: int, passed: list[Fact]) -> int | None:
        """Returns a digit of a sum or a difference, or of bits, if those of both registers are known."""
        if value.kind not in ("sum", "difference"):
            one, other = self.digit(value.into, place, passed), self.digit(value.y, place, passed)
            return None if one is None or other is None else one & other if value.kind == "and" else one | other
        carry, found = int(value.carry_in == "true"), 0
        for at in range(value.lo, place + 1):
            one, other = self.digit(value.x, at, passed), self.digit(value.y, at, passed)
            if one is None or other is None:
                return None
            total = one + other + carry if value.kind == "sum" else one - other - carry
            carry = int(not 0 <= total < value.base) if value.kind == "difference" else int(total >= value.base)
            found = (total + (value.base if value.kind == "difference" else -value.base) if carry else total) % 16
        return found

    # Facts.

    def fact(self, owner: Node, left: Form, relation: str, right: Form, proof: str) -> Fact:
        """Returns a new fact: a comparison of two sums."""
        self.count += 1
        one = Fact(f"fact_{self.count}", f"{form_text(left)} {SIGNS[relation]} {form_text(right)}", proof, keys_in(left, right), owner,
                   row(left, relation, right))
        owner.facts.append(one)
        return one

    def defining(self, key: Key) -> list[Fact]:
        """Returns the facts that define a number."""
        if isinstance(key, str):
            if key in self.carries:
                value = self.carries[key]
                return [one for one in self.defining(Span(value.name, value.lo, value.hi, value.base)) if key in one.keys]
            if key not in self.others:
                self.others[key] = list(self.facts_of_number(key))
            return self.others[key]
        if key not in self.found:
            self.found[key] = []
            self.found[key] += list(self.facts_of(key))
        return self.found[key]

    def facts_of_number(self, key: str) -> Iterator[Fact]:
        """Yields the facts that define a number that is not one of digits of a register: bits, bytes and G."""
        names = [name for name in NAMES.findall(key) if name in self.owners]
        owner = self.owners[names[-1]] if names else self.root
        assert owner
        if key.endswith(" % 256)"):
            status = key.removeprefix("(").removesuffix(" % 256)")
            bits: Form = {status_bit(bit, status): 1 << bit for bit in range(8)}
            yield self.fact(owner, {key: 1}, "=", bits, f"status_bits {with_status(status)}")
        elif key.startswith("carry_digit "):
            yield self.fact(owner, {key: 1}, "<=", {None: 1}, f"carry_at_most {key.removeprefix('carry_digit ')}")
        elif key.endswith(".processor.g"):
            yield self.fact(owner, {key: 1}, "<", {None: 256}, f"{owner.whole}.processor.g")

    def facts_of(self, key: Span) -> Iterator[Fact]:
        """Yields the facts that define the number of some digits."""
        name, lo, hi, base = key
        if name == "zeros":
            if self.root:
                yield self.fact(self.root, {key: 1}, "=", {}, f"zeros_number {base} {lo} {hi}")
            return
        value = self.value(name)
        if value.kind == "same":
            yield self.fact(value.owner, {key: 1}, "=", {key.of(value.x): 1},
                            f"ap (λ register. number_of {base} register {lo} {hi}) ({value.rule})")
            return
        if base == 10 and lo == hi:
            yield self.fact(value.owner, {key: 1}, "=", {Span(name, lo, hi): 1}, f"digit_in_both {argument(name)} {lo}")
            return
        yield from self.bounds(value, key)
        middle = next((cut for cut in sorted(self.cuts) if lo < cut <= hi), None)
        if middle is not None:
            low, high = key.within(lo, middle - 1), key.within(middle, hi)
            yield self.fact(value.owner, {key: 1}, "=", {low: 1, high: base ** (middle - lo)},
                            f"parts {base} {lo} {middle - 1} {hi} {argument(name)} (omega arith) (omega arith)")
        elif hi < value.lo or lo > value.hi:
            yield from self.kept(value, key)
        elif value.kind in ("copy", "right", "left", "digit", "word", "rotated", "and", "or"):
            yield from getattr(self, f"{value.kind}_facts")(value, key)
        if value.kind in ("sum", "difference") and value.lo <= lo <= value.hi and base == value.base:
            yield from self.rule(value)

    def bounds(self, value: Value, key: Span) -> Iterator[Fact]:
        """Yields the fact that a number has a limit."""
        name, lo, hi, base = key
        limit: Form = {None: base ** (hi + 1 - lo)}
        if base == 16:
            yield self.fact(value.owner, {key: 1}, "<", limit,
                            f"below {lo} {hi} {argument(name)} {value.is_register} (omega arith) (omega arith)")
            return
        decimal = self.decimals.proof(name, lo, hi)
        if decimal:
            yield self.fact(value.owner, {key: 1}, "<", limit, f"below_ten {lo} {hi} {argument(name)} {decimal}")

    def keeps(self, value: Value) -> str:
        """Returns the proof that a word keeps digits outside its places."""
        into, size = argument(value.into), self.size(value)
        args = f"{value.lo} {value.hi} {size} (omega arith)"
        return {"sum": f"{value.rule}.outside", "difference": f"{value.rule}.outside",
                "copy": f"(copy_keeps replaced {into} {argument(value.x)} {args})",
                "right": f"(right_keeps replaced {into} {into} {args})", "left": f"(left_keeps replaced {into} {into} {args})",
                "digit": f"(loading_keeps {into} {value.lo} {' '.join(map(str, value.digits))})",
                "word": f"(word_keeps {into} {' '.join(map(str, value.digits))} {size})"}[value.kind]

    def kept(self, value: Value, key: Span) -> Iterator[Fact]:
        """Yields the fact that a word keeps digits outside its places."""
        name, lo, hi, base = key
        way = "kept_above" if lo > value.hi else "kept_below"
        yield self.fact(value.owner, {key: 1}, "=", {key.of(value.into): 1},
                        f"{way} {base} {value.lo} {value.hi} {lo} {hi} {argument(value.into)} {argument(name)} (omega arith) "
                        f"{self.keeps(value)}")

    def register(self, name: str) -> str:
        """Returns the proof that a register has 14 digits."""
        return "zeros_register" if name == "zeros" else self.value(name).is_register

    def numbers_in(self, base: int, names: Iterable[str], lo: int, hi: int) -> list[str]:
        """Returns the proofs that some digits of registers form numbers in a base, as arguments; nothing if that is not known."""
        if base == 16:
            return [f"(inl (refl, {self.register(name)}))" for name in names]
        decimals = [self.decimals.proof(name, lo, hi) for name in names]
        return [] if None in decimals else [f"(inr (refl, {one}))" for one in decimals]

    def rule(self, value: Value) -> Iterator[Fact]:
        """Yields the fact that a sum or a difference is that of whole numbers."""
        base, key = value.base, Span(value.name, value.lo, value.hi, value.base)
        if value.is_ruled:
            return
        value.is_ruled = True
        numbers = self.numbers_in(base, (value.x, value.y), value.lo, value.hi)
        if not numbers:
            return
        x, y = (self.operand(name, key) for name in (value.x, value.y))
        carry = f"carry_digit {value.carry}"
        power, bit = base ** (value.hi + 1 - value.lo), int(value.carry_in == "true")
        law = "sums" if value.kind == "sum" else "differences"
        registers = " ".join(map(argument, (value.into, value.x, value.y)))
        args = (f"{base} {value.lo} {value.hi} {registers} {value.name} {value.carry_in} {value.carry} (omega arith) (omega arith) "
                f"{' '.join(numbers)} {value.rule}")
        zero = f", zeros_number {base} {value.lo} {value.hi}" if "zeros" in (value.x, value.y) else ""
        left: Form = {**added_form(x, y), None: bit}
        right: Form = {key: 1, carry: power}
        if value.kind == "difference":
            left, right = added_form(x, {carry: power}), {**added_form({key: 1}, y), None: bit}
        yield self.fact(value.owner, left, "=", right, f"omega (arith, {law} {args}{zero})")
        yield self.fact(value.owner, {carry: 1}, "<=", {None: 1}, f"carry_at_most {value.carry}")

    @staticmethod
    def operand(name: str, key: Span) -> Form:
        """Returns an operand of a sum as a sum."""
        return {key.of(name): 1} if name != "zeros" else {}

    def copy_facts(self, value: Value, key: Span) -> Iterator[Fact]:
        """Yields the fact that digits are copied."""
        _, lo, hi, base = key
        copied = (f"copy_number replaced {argument(value.into)} {argument(value.x)} {value.lo} {value.hi} {self.size(value)} "
                  f"(omega arith) {base} {lo} {hi} (omega arith) (omega arith)")
        if value.x == "zeros":
            yield self.fact(value.owner, {key: 1}, "=", {}, f"{copied} ∙ zeros_number {base} {lo} {hi}")
        else:
            yield self.fact(value.owner, {key: 1}, "=", {key.of(value.x): 1}, copied)

    def shift_facts(self, value: Value, key: Span, empty: int, step: int, way: str, end: str) -> Iterator[Fact]:
        """Yields the fact that a digit is shifted, or that it becomes 0 at the end of the field."""
        place = key.lo
        args = f"replaced {argument(value.into)} {argument(value.into)} {value.lo} {value.hi} {self.size(value)} (omega arith)"
        one = f"one_digit 16 {argument(value.name)} {place}"
        if place == empty:
            yield self.fact(value.owner, {key: 1}, "=", {}, f"{one} ∙ {end} {args} (omega arith)")
        else:
            source = Span(value.into, place + step, place + step)
            yield self.fact(value.owner, {key: 1}, "=", {source: 1},
                            f"{one} ∙ {way} {args} {place} (omega arith) (omega arith) ∙ sym (one_digit 16 {argument(value.into)} "
                            f"{place + step})")

    def right_facts(self, value: Value, key: Span) -> Iterator[Fact]:
        """Yields the facts of a shift to the right."""
        return self.shift_facts(value, key, value.hi, 1, "right_digit", "right_top")

    def left_facts(self, value: Value, key: Span) -> Iterator[Fact]:
        """Yields the facts of a shift to the left."""
        return self.shift_facts(value, key, value.lo, -1, "left_digit", "left_low")

    def rotated_facts(self, value: Value, key: Span) -> Iterator[Fact]:
        """Yields the fact that a digit is rotated."""
        place, source = key.lo, (key.lo + int(value.digits[0])) % PLACES
        yield self.fact(value.owner, {key: 1}, "=", {Span(value.into, source, source): 1},
                        f"one_digit 16 {value.name} {place} ∙ sym (one_digit 16 {argument(value.into)} {source})")

    def digit_facts(self, value: Value, key: Span) -> Iterator[Fact]:
        """Yields the fact that a digit was loaded: a constant, or a number that other facts define."""
        digit = value.digits[0]
        right: Form = {None: digit} if isinstance(digit, int) else {digit: 1}
        yield self.fact(value.owner, {key: 1}, "=", right,
                        f"one_digit 16 {argument(value.name)} {value.lo} ∙ loaded_digit {argument(value.into)} {value.lo} {digit} "
                        f"(omega (arith, {self.size(value)}))")

    def word_facts(self, value: Value, key: Span) -> Iterator[Fact]:
        """Yields the fact that a word was loaded, as a whole or digit by digit."""
        args = f"{argument(value.into)} {' '.join(map(str, value.digits))} {self.size(value)}"
        digits = [int(digit) for digit in value.digits]
        if (key.lo, key.hi) == (0, 2):
            total = sum(digit << 4 * place for place, digit in enumerate(digits))
            yield self.fact(value.owner, {key: 1}, "=", {None: total}, f"omega (arith, word_number {args})")
        else:
            yield self.fact(value.owner, {key: 1}, "=", {None: digits[key.lo]},
                            f"one_digit 16 {value.name} {key.lo} ∙ word_digit_{key.lo} {args}")

    def bit_facts(self, value: Value, key: Span, bounds: Iterable[tuple[str, Form, Form]]) -> Iterator[Fact]:
        """Yields the facts of a digit whose bits come from those of two digits."""
        place, kind = key.lo, value.kind
        digits = [f"(slice_index {argument(name)} {place})" for name in (value.into, value.y)]
        typed = f"let digit : {number(key)} ≡ bit_{kind} {' '.join(digits)} = one_digit 16 {argument(value.name)} {place} in "
        ones = "".join(f", one_digit 16 {argument(name)} {place}" for name in (value.into, value.y))
        for lemma, left, right in bounds:
            yield self.fact(value.owner, left, "<=", right, f"{typed}omega (arith, digit{ones}, {lemma} {' '.join(digits)})")

    def and_facts(self, value: Value, key: Span) -> Iterator[Fact]:
        """Yields the facts of C=C AND A."""
        c, a = key.of(value.into), key.of(value.y)
        yield from self.bit_facts(value, key, [("and_at_most_c", {key: 1}, {c: 1}), ("and_at_most_a", {key: 1}, {a: 1})])
        limits = " ".join(f"({self.register(name)}.each {key.lo} 0 (omega (arith, {self.register(name)}.size)))"
                          for name in (value.into, value.y))
        digits = [f"(slice_index {argument(name)} {key.lo})" for name in (value.into, value.y)]
        typed = f"let digit : {number(key)} ≡ bit_and {' '.join(digits)} = one_digit 16 {argument(value.name)} {key.lo} in "
        ones = "".join(f", one_digit 16 {argument(name)} {key.lo}" for name in (value.into, value.y))
        yield self.fact(value.owner, {c: 1, a: 1}, "<=", {key: 1, None: 15},
                        f"{typed}omega (arith, digit{ones}, and_at_least {' '.join(digits)} {limits})")

    def or_facts(self, value: Value, key: Span) -> Iterator[Fact]:
        """Yields the facts of C=C OR A."""
        c, a = key.of(value.into), key.of(value.y)
        yield from self.bit_facts(value, key, [("or_at_least_c", {c: 1}, {key: 1}), ("or_at_least_a", {a: 1}, {key: 1}),
                                               ("or_at_most", {key: 1}, {c: 1, a: 1})])

    def reach(self, keys: Iterable[Key], passed: list[Fact], is_needed: bool = True, is_wide: bool = False) -> list[Fact]:
        """Returns the facts that may decide a claim about some numbers: those that define the numbers, tests and requirements that share
        a number with them, and so on. Also notes that they are needed. With `is_wide`, tests of numbers that are defined by the same ones
        are added, for example of the carry of a sum of two registers to a claim about these."""
        wanted: list[Key] = list(keys)
        seen: set[Key] = set()
        facts: dict[str, Fact] = {}
        while wanted:
            key = wanted.pop()
            if key not in seen:
                seen.add(key)
                for one in [*self.defining(key), *(fact for fact in passed if key in fact.keys)]:
                    if one.name not in facts:
                        facts[one.name] = one
                        one.is_needed |= is_needed
                        wanted += [other for other in one.keys if other not in seen]
            if not wanted and is_wide:
                wanted = [other for fact in passed if fact.name not in facts for other in fact.keys if self.depends(other, seen)]
        return list(facts.values())

    def depends(self, key: Key, others: set[Key]) -> bool:
        """Returns whether a number is defined by one of some others, or by a number that these define too."""
        return any(one in others for fact in self.reach([key], [], False) for one in fact.keys)
