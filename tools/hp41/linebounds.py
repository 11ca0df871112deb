"""Finds what follows from comparisons of sums of whole numbers: whether another comparison is true, and how great a sum can be."""
from __future__ import annotations

import ast
from fractions import Fraction
from math import ceil, floor
from typing import Hashable, Iterable

from .linear import Row, about, follows, row
from .linecounts import Count, summed

# The signs of the definitions, as comparisons.
RELATIONS = {"≡": "=", "<": "<", "≤": "<="}
# A number for whose bound a sum is chosen.
USUAL = 1_000
# The key of the number whose bounds are asked for. No variable has this name.
GOAL = "?"

Comparison = tuple[str, str, str]
Sum = dict[str | None, int]


def sum_of(text: str) -> Sum:
    """Returns a natural number of the definitions as a sum, in which the constant is the factor of None. A part that is neither a sum nor
    a multiple is a variable of its own."""
    return sum_in(ast.parse(text.strip(), mode="eval").body)


def sum_in(node: ast.expr) -> Sum:
    """Returns the sum that a part of a text is."""
    if isinstance(node, ast.Constant) and isinstance(node.value, int):
        return {None: node.value}
    if isinstance(node, ast.Name):
        return {node.id: 1}
    if not isinstance(node, ast.BinOp) or not isinstance(node.op, (ast.Add, ast.Sub, ast.Mult)):
        return {ast.unparse(node): 1}
    left, right = sum_in(node.left), sum_in(node.right)
    if isinstance(node.op, ast.Mult):
        one, other = (left, right) if set(left) <= {None} else (right, left)
        is_multiple = set(one) <= {None}
        return {key: many * one.get(None, 0) for key, many in other.items()} if is_multiple else {ast.unparse(node): 1}
    sign = 1 if isinstance(node.op, ast.Add) else -1
    return {key: left.get(key, 0) + sign * right.get(key, 0) for key in (*left, *(key for key in right if key not in left))}


def rows_of(comparison: Comparison) -> list[Row]:
    """Returns the rows of a comparison of natural numbers of the definitions."""
    return row(sum_of(comparison[0]), RELATIONS[comparison[1]], sum_of(comparison[2]))


def is_known(comparison: Comparison, rows: Iterable[Row]) -> bool:
    """Returns whether a comparison of natural numbers of the definitions follows from rows. The answer no can be wrong."""
    return follows(rows, sum_of(comparison[0]), RELATIONS[comparison[1]], sum_of(comparison[2]))


def bound_of(text: str, rows: Iterable[Row], kept: set[Hashable], most: int) -> Count:
    """Returns a number that a natural number of the definitions does not exceed, as a sum of those that are kept. Each variable is at most
    `most`."""
    found = sum_of(text)
    if kept.issuperset(key for key in found if key) and all(many >= 0 for many in found.values()):
        return count_of({key: Fraction(many) for key, many in found.items()})
    bounds = [count_of({key: Fraction(many * (most if key and many > 0 else 1)) for key, many in found.items()}, are_constants=True)]
    goal: Sum = {GOAL: 1}
    for one in about([*rows, *row(goal, "=", found)], {*kept, GOAL}):
        factor = one.factors.get(GOAL, Fraction(0))
        if factor < 0 or factor and one.is_equal:
            rest: dict[str | None, Fraction] = {str(key): many / -factor for key, many in one.factors.items() if key != GOAL}
            bounds.append(count_of({**rest, None: one.constant / -factor}))
    return min(bounds, key=lambda one: (usual(one), str(one)))


def usual(count: Count) -> int:
    """Returns a number of lines if all of its variables have the same value."""
    names = {name for _, one in count.parts for name in one.split(" * ")}
    return count.value({name: USUAL for name in names})


def count_of(factors: dict[str | None, Fraction], are_constants: bool = False) -> Count:
    """Returns a number that a sum does not exceed, without what is subtracted. If all variables are constants, their factors are added."""
    if are_constants:
        return Count(max(0, ceil(sum(many for many in factors.values() if many > 0))))
    is_whole = all(many.denominator == 1 for key, many in factors.items() if key)
    constant = factors.get(None, Fraction(0))
    parts = [(ceil(many), key) for key, many in sorted((str(key), many) for key, many in factors.items() if key) if many > 0]
    return summed(max(0, floor(constant) if is_whole else ceil(constant)), [(many, key) for many, key in parts])
