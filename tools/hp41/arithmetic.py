"""Operations on fields as other languages write them, such as `C += A` or `ADD C,A`, and how this processor does what they mean: with one
instruction, or with the shortest sequence of instructions. Only errors need this module."""
from __future__ import annotations

import re
from collections.abc import Iterator
from functools import lru_cache

# A value: how often it contains A, B, C and 1 of before. The three registers have such values.
Value = tuple[int, int, int, int]
State = tuple[Value, Value, Value]
REGISTERS = "ABC"
ZERO: Value = (0, 0, 0, 0)
BEFORE: State = ((1, 0, 0, 0), (0, 1, 0, 0), (0, 0, 1, 0))

COPIES = ("A<>B", "A<>C", "B<>C", "B=A", "A=C", "C=B")
SUMS = ("A=A+B", "A=A+C", "A=A-B", "A=A-C", "C=A+C", "C=A-C", "C=C+C", "A=A+1", "A=A-1", "C=C+1", "C=C-1", "C=0-C", "C=-C-1",
        "A=0", "B=0", "C=0")
TESTS = ("?A#0", "?B#0", "?C#0", "?A#C", "?A<C", "?A<B")

# The most instructions of a sequence.
LONGEST = 3

TERM = re.compile(r"([-+]?)([ABC]|[01](?![0-9]))")
ASSIGNED = re.compile(r"([ABC])=([-+ABC01]+)")
EXCHANGED = re.compile(r"([ABC])<>([ABC])")
COMPARED = re.compile(r"\??([ABC])(==|=|#|!=|<>|<=|>=|<|>)([ABC]|0)")

# Forms of other languages, and the assignment or test that they mean.
FORMS = [
    (r"([ABC])([-+])=([ABC1])", r"\1=\1\2\3"), (r"([ABC])([-+])\2|([-+])\3([ABC])", r"\1\4=\1\4\2\g<3>1"),
    (r"([ABC])(?:<<=|=\1<<)1|([ABC])=(?:\2\*2|2\*\2)|([ABC])\*=2", r"\1\2\3=\1\2\3+\1\2\3"), (r"([ABC]):=(.+)", r"\1=\2"),
    (r"([ABC])=(?:~|!|NOT\(?)\1\)?", r"\1=-\1-1"), (r"([ABC])(?:<=>|<->|><)([ABC])", r"\1<>\2"), (r"([ABC]),([ABC])=\2,\1", r"\1<>\2"),
    (r"([-+ABC01]+)->([ABC])", r"\2=\1"), (r"([ABC])<-([-+ABC01]+)", r"\1=\2"),
]

# Instructions of other processors with registers: the assignment or test that they mean.
OF_TWO = {"MOV": "{0}={1}", "MOVE": "{0}={1}", "LD": "{0}={1}", "COPY": "{0}={1}", "ADD": "{0}={0}+{1}",
          "ADC": "{0}={0}+{1}", "ADDS": "{0}={0}+{1}", "SUBS": "{0}={0}-{1}", "MOVS": "{0}={1}",
          "SUB": "{0}={0}-{1}", "SBC": "{0}={0}-{1}", "SBB": "{0}={0}-{1}", "XCHG": "{0}<>{1}", "EX": "{0}<>{1}", "EXG": "{0}<>{1}",
          "EXCHANGE": "{0}<>{1}", "SWAP": "{0}<>{1}", "CMP": "?{0}#{1}", "CP": "?{0}#{1}", "COMPARE": "?{0}#{1}"}
OF_ONE = {"INC": "{0}={0}+1", "INCR": "{0}={0}+1", "INX": "{0}={0}+1", "DEC": "{0}={0}-1", "DECR": "{0}={0}-1", "DCR": "{0}={0}-1",
          "NEG": "{0}=0-{0}", "NOT": "{0}=-{0}-1", "CPL": "{0}=-{0}-1", "COM": "{0}=-{0}-1", "CLR": "{0}=0", "CLEAR": "{0}=0",
          "ZERO": "{0}=0", "TST": "?{0}#0", "TEST": "?{0}#0", "DOUBLE": "{0}={0}+{0}"}
OTHER = re.compile(r"([A-Z]+)\s+([ABC])(?:\s*[, ]\s*#?([ABC01]))?", re.I)


def plus(one: Value, other: Value, sign: int = 1) -> Value:
    """Returns the sum or the difference of two values."""
    return one[0] + sign * other[0], one[1] + sign * other[1], one[2] + sign * other[2], one[3] + sign * other[3]


def value_of(text: str, state: State) -> Value | None:
    """Returns the value of a sum such as `A+C` or `-C-1`; None if it is no sum."""
    found, end = ZERO, 0
    for term in TERM.finditer(text):
        if term.start() != end or end and not term[1]:
            return None
        one = (0, 0, 0, int(term[2])) if term[2] in "01" else state[REGISTERS.index(term[2])]
        found, end = plus(found, one, -1 if term[1] == "-" else 1), term.end()
    return found if end == len(text) and end else None


def after(name: str, state: State) -> State:
    """Returns the registers after an instruction."""
    exchanged = EXCHANGED.fullmatch(name)
    found = list(state)
    if exchanged:
        one, other = (REGISTERS.index(register) for register in exchanged.groups())
        found[one], found[other] = found[other], found[one]
    else:
        found[REGISTERS.index(name[0])] = value_of(name[2:], state) or ZERO
    return found[0], found[1], found[2]


@lru_cache(None)
def sequences() -> tuple[tuple[tuple[str, ...], State], ...]:
    """Returns the shortest sequences of instructions to each state, with the state, the shortest first. Of several, the first one is that
    which keeps most registers."""
    found: dict[State, tuple[str, ...]] = {BEFORE: ()}
    last = [BEFORE]
    for _ in range(LONGEST):
        steps = [(state, name) for state in last for name in (*COPIES, *SUMS)]
        last = []
        for state, name in steps:
            new = after(name, state)
            if new not in found:
                found[new] = *found[state], name
                last.append(new)
    return tuple(sorted(((names, state) for state, names in found.items()), key=lambda one: (len(one[0]), changed(one[1]))))


def changed(state: State) -> int:
    """Returns how many registers have other values than before."""
    return sum(one != before for one, before in zip(state, BEFORE))


def meant(text: str) -> str:
    """Returns the assignment, exchange or test that a form of another language means, such as C=C+1; an empty text if it means none."""
    flat = re.sub(r"\s", "", text).rstrip(";,").upper()
    three = re.fullmatch(r"(ADD|SUB)S?\s+([ABC])\s*,\s*([ABC])\s*,\s*#?([ABC1])", text.strip().rstrip(";"), re.I)
    if three:
        return f"{three[2]}={three[3]}{'+' if three[1].upper() == 'ADD' else '-'}{three[4]}".upper()
    other = OTHER.fullmatch(text.strip().rstrip(";"))
    if other:
        name, first, second = other[1].upper(), other[2].upper(), (other[3] or "").upper()
        form = OF_TWO.get(name) if second else OF_ONE.get(name)
        return form.format(first, second) if form else ""
    for pattern, own in FORMS:
        found = re.fullmatch(pattern, flat)
        if found:
            return found.expand(own)
    return flat


def assignments(wanted: str) -> Iterator[tuple[str, ...]]:
    """Yields sequences that assign the wanted value."""
    found = ASSIGNED.fullmatch(wanted)
    value = value_of(found[2], BEFORE) if found else None
    if found and value is not None:
        yield from (names for names, state in sequences() if state[REGISTERS.index(found[1])] == value)
    exchanged = EXCHANGED.fullmatch(wanted)
    if exchanged and exchanged[1] != exchanged[2]:
        yield from (names for names, state in sequences() if state == after(wanted, BEFORE))


def tests(wanted: str) -> Iterator[tuple[str, ...]]:
    """Yields sequences that end with a test for what is wanted, or for its contrary: then the last text says that the jump is JNC."""
    found = COMPARED.fullmatch(wanted)
    if not found:
        return
    left, sign, right = found.groups()
    # A field is never below 0.
    sign = {">": "#", "<=": "="}.get(sign, sign) if right == "0" else sign
    if right == "0" and sign in ("<", ">=") or sign == "<>" and right != "0":
        return
    one, other = (value_of(part, BEFORE) for part in (left, right))
    if sign in (">", "<="):
        one, other, sign = other, one, {">": "<", "<=": ">="}[sign]
    is_contrary = sign in ("=", "==", ">=")
    own = "#" if sign in ("=", "==", "#", "!=", "<>") else "<"
    for names, state in sequences():
        for test in TESTS if len(names) < LONGEST and not set(names) & set(SUMS) else ():
            pair = [value_of(part, state) for part in (test[1], test[3])]
            if test[2] == own and pair in ([one, other], [other, one] if own == "#" else []):
                yield (*names, test, *(["JNC in place of JC"] if is_contrary else []))


def own_way(wanted: str) -> tuple[str, ...]:
    """Returns the shortest way to do what is wanted; an empty tuple if none is known."""
    return next(assignments(wanted), ()) or next(tests(wanted), ())


def in_words(names: tuple[str, ...]) -> str:
    """Returns instructions in words."""
    return names[0] if len(names) < 2 else f"{', '.join(names[:-1])} and then {names[-1]}"
