"""Decides whether some comparisons of sums of whole numbers contradict each other. The answer no can be wrong, the answer yes cannot."""
from __future__ import annotations

from fractions import Fraction
from itertools import product
from typing import Any, Hashable, Iterable, Mapping, NamedTuple

# More rows than these are not examined, and of those that say that a sum is not zero, more than these.
MOST_ROWS, MOST_OTHERS = 1_500, 4


class Row(NamedTuple):
    """A comparison with zero: the sum of the numbers times their factors, plus the constant, is zero, or not negative. With `is_other`, it
    is a whole number that is not zero."""
    factors: dict[Hashable, Fraction]
    constant: Fraction
    is_equal: bool
    is_other: bool = False


def row(left: Mapping[Any, int], relation: str, right: Mapping[Any, int]) -> list[Row]:
    """Returns the rows of a comparison of two sums of whole numbers. The constant of a sum is its factor of None."""
    if relation in (">", ">="):
        return row(right, {">": "<", ">=": "<="}[relation], left)
    sign = -1
    factors: dict[Hashable, Fraction] = {}
    for side, part in ((1, right), (sign, left)):
        for key, many in part.items():
            factors[key] = factors.get(key, Fraction(0)) + side * many
    constant = factors.pop(None, Fraction(0)) - (1 if relation == "<" else 0)
    return [Row({key: many for key, many in factors.items() if many}, Fraction(constant), relation == "=", relation == "<>")]


def added(one: Row, many: Fraction, other: Row, times: Fraction, is_equal: bool) -> Row:
    """Returns the sum of multiples of two rows."""
    factors = {key: many * one.factors.get(key, Fraction(0)) + times * other.factors.get(key, Fraction(0))
               for key in {*one.factors, *other.factors}}
    return Row({key: factor for key, factor in factors.items() if factor}, many * one.constant + times * other.constant, is_equal)


def is_false(one: Row) -> bool:
    """Returns whether a row without numbers is false."""
    return not one.factors and (one.constant != 0 if one.is_equal else one.constant < 0)


# For each relation those of which one is true if it is false.
OPPOSITES = {"=": ("<", ">"), "<>": ("=",), "<": (">=",), "<=": (">",), ">": ("<=",), ">=": ("<",)}


def follows(rows: Iterable[Row], left: Mapping[Any, int], relation: str, right: Mapping[Any, int]) -> bool:
    """Returns whether a comparison of two sums follows from rows. The answer no can be wrong, the answer yes cannot."""
    known = list(rows)
    return all(contradicts([*known, *row(left, opposite, right)]) for opposite in OPPOSITES[relation])


def with_signs(rows: Iterable[Row]) -> list[Row]:
    """Returns rows, and that none of their numbers is negative."""
    found = list(rows)
    return found + [Row({key: Fraction(1)}, Fraction(0), False) for key in {key for one in found for key in one.factors}]


def without_one(rows: list[Row], keys: set[Hashable]) -> list[Row]:
    """Returns what follows from rows for numbers without one of these."""
    equal = next((one for one in rows if one.is_equal and not keys.isdisjoint(one.factors)), None)
    if equal:
        key = next(key for key in equal.factors if key in keys)
        return [one if key not in one.factors else added(one, Fraction(1), equal, -one.factors[key] / equal.factors[key], one.is_equal)
                for one in rows if one is not equal]
    key = min(sorted(keys, key=str), key=lambda key: sum(1 for one in rows if one.factors.get(key, 0) > 0) * sum(
        1 for one in rows if one.factors.get(key, 0) < 0))
    more = [one for one in rows if one.factors.get(key, 0) > 0]
    less = [one for one in rows if one.factors.get(key, 0) < 0]
    return [*(one for one in rows if key not in one.factors),
            *(added(one, -other.factors[key], other, one.factors[key], False) for one in more for other in less)]


def contradicts(rows: Iterable[Row]) -> bool:
    """Returns whether no numbers that are not negative meet all rows."""
    known = list(rows)
    others = [one for one in known if one.is_other][:MOST_OTHERS]
    known = [one for one in known if not one.is_other]
    return all(is_never([*known, *signed]) for signed in product(*map(both_signs, others)))


def both_signs(one: Row) -> list[Row]:
    """Returns what is true of a sum that is not zero: it is at least one, or at most minus one."""
    return [Row({key: sign * many for key, many in one.factors.items()}, sign * one.constant - 1, False) for sign in (1, -1)]


def is_never(rows: list[Row]) -> bool:
    """Returns whether no numbers that are not negative meet all rows, none of which says only that a sum is not zero."""
    left = with_signs(rows)
    while True:
        if any(map(is_false, left)):
            return True
        keys = {key for one in left for key in one.factors}
        if not keys or len(left) > MOST_ROWS:
            return False
        left = without_one(left, keys)


def about(rows: Iterable[Row], kept: set[Hashable]) -> list[Row]:
    """Returns what follows from rows for some of the numbers alone. If there are too many rows, not all of it is found."""
    left = with_signs(one for one in rows if not one.is_other)
    while True:
        keys = {key for one in left for key in one.factors} - kept
        if not keys or len(left) > MOST_ROWS:
            return [one for one in left if not keys.intersection(one.factors)]
        left = distinct(without_one(left, keys))


def distinct(rows: list[Row]) -> list[Row]:
    """Returns rows without repetitions and without those that are always true."""
    found: dict[Hashable, Row] = {}
    for one in rows:
        size = max((abs(many) for many in one.factors.values()), default=Fraction(0))
        if size:
            scaled = Row({key: many / size for key, many in one.factors.items()}, one.constant / size, one.is_equal)
            found[(frozenset(scaled.factors.items()), scaled.constant, scaled.is_equal)] = scaled
        elif is_false(one):
            found[(frozenset(), one.constant, one.is_equal)] = one
    return list(found.values())
