"""What the model of the calculator computes with: what registers hold, how the display shows it, and what lines make of it.
It is written by docs/NUMBERS.md and docs/LINES.md, shares nothing with the crates, and has what the decks of `.ci/keys` need.

A register holds a number, a Decimal of at most ten digits, or ALPHA data, a text of at most six characters.
"""
import re
from collections.abc import Callable, Collection
from decimal import ROUND_DOWN, ROUND_HALF_UP, Context, Decimal
from typing import Union

from judging import sure

TEN_DIGITS = Context(prec=10, rounding=ROUND_HALF_UP)
MANY_DIGITS = Context(prec=300)
GREATEST = Decimal("9.999999999E99")
PI = Decimal("3.141592654")

Register = Union[Decimal, str]


class Fault(Exception):
    """A line's error: the message that the display shows."""


def nearest(exact: Decimal, bounded: bool) -> Decimal:
    """The ten-digit number nearest to an exact one, halves away from zero; beyond the greatest that one, if it is bounded."""
    rounded = TEN_DIGITS.plus(exact)
    if rounded and rounded.adjusted() > 99:
        if bounded:
            return GREATEST.copy_sign(exact)
        raise Fault("OUT OF RANGE")
    return rounded if rounded and rounded.adjusted() >= -99 else Decimal(0)


def typed(text: str) -> Decimal:
    """What a whole number line is worth: the digits before the E as one whole number, times ten to the exponent less the count
    of digits after the point. Past exponent 99 that is the greatest number, below -99 zero."""
    sign, before, _, after, turned, exponent = sure(re.fullmatch(r"(-?)(\d*)(\.?)(\d*)(?:E(-?)(\d*))?", text)).groups()
    digits = (before + after).lstrip("0")
    scale = int(exponent or 0) * (-1 if turned else 1) - len(after)
    size = scale + len(digits) - 1
    if not digits or size < -99:
        return Decimal(0)
    value = GREATEST if size > 99 else Decimal((0, tuple(map(int, digits)), scale))
    return -value if sign else value


def register_digits(value: Register) -> str:
    """The 14 digits of a register."""
    if isinstance(value, str):
        return "10" + value.encode("ascii").hex().upper().rjust(12, "0")
    if not value:
        return "0" * 14
    digits = "".join(map(str, value.as_tuple().digits)).lstrip("0").ljust(10, "0")
    return f"{'9' if value < 0 else '0'}{digits[:10]}{value.adjusted() % 1000:03d}"


def number_text(value: Decimal, flags: Collection[int]) -> str:
    """How the display shows a number under the flags: 28 the radix mark, 29 groups, 36 to 39 the digits, 40 FIX, 41 ENG."""
    places = min(9, sum(8 >> flag - 36 for flag in range(36, 40) if flag in flags))
    mark, comma = (".", ",") if 28 in flags else (",", ".")
    size, sign = abs(value), "-" if value < 0 else ""

    def exponent_text(digits: str, whole: int, exponent: int) -> str:
        """Returns digits with a radix mark and an exponent."""
        return f"{sign}{digits[:whole]}{mark}{digits[whole:]}{'-' if exponent < 0 else ' '}{abs(exponent):02d}"

    if 40 in flags and size < Decimal("1E10"):
        shown = min(places, 10 - max(1, size.adjusted() + 1)) if size else places
        rounded = size.quantize(Decimal(1).scaleb(-shown), ROUND_HALF_UP)
        if rounded or not size:
            before, _, part = f"{rounded:f}".partition(".")
            if 29 in flags:
                before = f"{int(before):,}".replace(",", comma)
            return sign + before + (mark if places or 29 in flags else "") + part
    engineering = 41 in flags and 40 not in flags
    count = min(places + 1, 8)
    if not size:
        return exponent_text("0" * count, 1, 0)
    rounded = Context(prec=count, rounding=ROUND_HALF_UP).plus(size)
    if rounded.adjusted() > 99:
        rounded = Context(prec=count, rounding=ROUND_DOWN).plus(size)
    digits = "".join(map(str, rounded.as_tuple().digits)).ljust(count, "0")
    exponent = rounded.adjusted()
    whole = exponent % 3 + 1 if engineering else 1
    return exponent_text(digits.ljust(whole, "0"), whole, exponent + 1 - whole)


def register_text(value: Register, flags: Collection[int]) -> str:
    """How the display shows a register."""
    return value if isinstance(value, str) else number_text(value, flags)


def number(value: Register) -> Decimal:
    """A register's number; ALPHA data is an error."""
    if isinstance(value, str):
        raise Fault("ALPHA DATA")
    return value


def of_two(operation: str, y: Register, x: Register, flags: Collection[int]) -> Decimal:
    """What a line makes of Y and X, or of a register and X; flag 24 bounds it."""
    y, x = number(y), number(x)
    if operation == "/" and not x:
        raise Fault("DATA ERROR")
    exact: dict[str, Callable[[Decimal, Decimal], Decimal]] = {
        "+": MANY_DIGITS.add, "-": MANY_DIGITS.subtract, "*": MANY_DIGITS.multiply, "/": MANY_DIGITS.divide,
        "%": lambda of, rate: MANY_DIGITS.multiply(of, rate).scaleb(-2)}
    return nearest(exact[operation](y, x), 24 in flags)


def of_x(operation: str, x: Register, flags: Collection[int]) -> Decimal:
    """What a line makes of X alone; flag 24 bounds it."""
    value = number(x)
    if operation == "CHS":
        return -value if value else value
    if operation == "1/X" and not value or operation == "SQRT" and value < 0:
        raise Fault("DATA ERROR")
    exact: dict[str, Callable[[], Decimal]] = {
        "1/X": lambda: MANY_DIGITS.divide(Decimal(1), value), "SQRT": lambda: MANY_DIGITS.sqrt(value),
        "X^2": lambda: MANY_DIGITS.multiply(value, value)}
    return nearest(exact[operation](), 24 in flags)


def holds(test: str, y: Register, x: Register) -> bool:
    """What a test answers. Those for equality take registers as they are."""
    if test in ("X=Y?", "X=0?"):
        return x == (y if test == "X=Y?" else 0)
    y, x = number(y), number(x)
    return {"X<=Y?": x <= y, "X>Y?": x > y}[test]


def counted(value: Register) -> tuple[Decimal, bool]:
    """What ISG makes of a counter, and whether it then skips: iiiii.fffcc is counted up by cc, by 1 where that is 0."""
    value = number(value)
    whole = value.to_integral_value(ROUND_DOWN)
    part = abs(value) - abs(whole)
    last, each = divmod(int(part.scaleb(5).to_integral_value(ROUND_DOWN)), 100)
    whole += each or 1
    size = TEN_DIGITS.plus(abs(whole) + part)
    return (-size if whole < 0 else size), whole > last
