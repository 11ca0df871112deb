"""How many steps a function takes: the most steps of its ways, and how many are left in a state, if this depends on registers."""
from __future__ import annotations

from fractions import Fraction
from typing import Callable, Iterable

from .activebanks import PAGES
from .codes import Loop, NotProved, Result, form_of, measure_of
from .counts import counted
from .knowledge import Knowledge
from .linear import Row, contradicts, row
from .symbols import Fact, Form, Key, Node, Span, keys_in, literal, start_of

# Return addresses that are the same on all ways.
KNOWN_RETURNS = ("r0", "r1", "r2", "r3", "0")

# How far a number is traced back to registers before the call.
DEEPEST = 40


def is_of_start(key: Key) -> bool:
    """Returns whether a number is one of the state in which the function begins."""
    return key.name.startswith(("s.", "register_at s.")) if isinstance(key, Span) else key.startswith(("s.", "(s."))


def bound_by(one: Row, key: Key) -> tuple[dict[Key, Fraction], Fraction] | None:
    """Returns the sum that a row makes the limit of a number, without negative terms; None if it is no limit."""
    factor = one.factors.get(key, Fraction(0))
    if not factor or not one.is_equal and factor > 0:
        return None
    others = {other: -many / factor for other, many in one.factors.items() if other != key and isinstance(other, (str, Span))}
    return {other: many for other, many in others.items() if many > 0}, -one.constant / factor


def limit(know: Knowledge, key: Key, passed: list[Fact], seen: frozenset[Key] = frozenset()) -> Form | None:
    """Returns a sum over the state in which the function begins that a number is equal to, or at most; None if none is found."""
    if is_of_start(key):
        return {key: 1}
    if key in seen or len(seen) > DEEPEST:
        return None
    facts = [*know.defining(key), *(fact for fact in passed if key in fact.keys)]
    rows = [one for fact in facts for one in fact.rows]
    for is_equal in (True, False):
        for one in rows:
            found = bound_by(one, key) if one.is_equal == is_equal and len(one.factors) > 1 else None
            traced = found and traced_back(know, found, passed, seen | {key})
            if traced is not None:
                return traced
    return None


def traced_back(know: Knowledge, found: tuple[dict[Key, Fraction], Fraction], passed: list[Fact],
                seen: frozenset[Key]) -> Form | None:
    """Returns a sum over the state in which the function begins for another sum, which is at most this; None if there is none, or if a
    factor is no integer. A number that is subtracted counts only if it is one of this state."""
    total: dict[Key | None, Fraction] = {None: found[1]}
    for key, many in found[0].items():
        if many < 0 and not is_of_start(key):
            continue
        part = limit(know, key, passed, seen)
        if part is None:
            return None
        for one, factor in part.items():
            total[one] = total.get(one, Fraction(0)) + many * factor
    if any(many.denominator != 1 for many in total.values()):
        return None
    return {key: int(many) for key, many in total.items()}


def over_start(know: Knowledge, form: Form, passed: list[Fact]) -> Form | None:
    """Returns a sum over the state in which the function begins that another sum is equal to, or at most."""
    parts = {key: Fraction(many) for key, many in form.items() if key is not None}
    return traced_back(know, (parts, Fraction(form.get(None, 0))), passed, frozenset())


def most(know: Knowledge, form: Form, passed: list[Fact]) -> int:
    """Returns the largest value of a sum that is not excluded by what is known."""
    rows = [one for fact in know.reach(keys_in(form), passed, False) for one in fact.rows]
    low = 0
    high = max(0, form.get(None, 0)) + sum(many * (key.base ** (key.hi + 1 - key.lo) if isinstance(key, Span) else 0x10000)
                                           for key, many in form.items() if key is not None and many > 0)
    while low < high:
        middle = (low + high) // 2
        if contradicts([*rows, *row({None: middle + 1}, "<=", {**form})]):
            high = middle
        else:
            low = middle + 1
    return low


def minus(one: Form, other: Form) -> Form:
    """Returns a difference of sums."""
    found = {key: one.get(key, 0) - other.get(key, 0) for key in (*one, *(key for key in other if key not in one))}
    return {key: many for key, many in found.items() if many}


def is_natural(form: Form) -> bool:
    """Returns whether no factor of a sum is negative."""
    return all(many >= 0 for many in form.values())


def left_after(know: Knowledge, budget: Form, cost: Form, passed: list[Fact]) -> Form:
    """Returns the steps that are left of a number of steps, as a sum over the state in which the function begins. It has a negative
    factor if they do not suffice."""
    traced = over_start(know, cost, passed)
    if traced is not None and is_natural(minus(budget, traced)):
        return minus(budget, traced)
    return minus(budget, {None: most(know, cost, passed)})


def summarise(result: Result) -> None:
    """Finds the components that a function changes, and how many steps it takes."""
    names = dict.fromkeys(name for end in result.ends for name, term in end.state.terms.items()
                          if term != start_of(name) and name != PAGES)
    start = result.root.state.terms
    for name in names:
        terms = {end.state.of(name) for end in result.ends}
        if terms != {start_of(name)} and terms != {start.get(name)}:
            one = next(iter(terms))
            result.changed[name] = one if len(terms) == 1 and literal(one) else None
        elif name in start:
            result.changed[name] = start[name]
    if not result.ends:
        raise NotProved(result.contract.line, f"{result.label} never returns, expected an RTN on a way from it")
    stacks = [{end.state.returns[at] for end in result.ends} for at in range(len(result.ends[0].state.returns))]
    result.returns = tuple(next(iter(one)) if len(one) == 1 and one <= {*KNOWN_RETURNS} else f"return_{at}"
                           for at, one in enumerate(stacks))
    claimed = result.contract.steps
    result.is_exact = bool(claimed and claimed.is_exact)
    if result.loops and not claimed:
        raise NotProved(result.contract.line, f"{result.label} has a loop, {result.loops[0].label}, expected a claim such as "
                                              "`within 4 * C.SX + 6 steps`")
    if result.is_budgeted:
        bound_loops(result)
        give_budgets(result)
    else:
        count(result)


def bound_loops(result: Result) -> None:
    """Counts the steps of the rounds of loops."""
    for loop in result.loops:
        counts = [count_steps(root) for root in loop.roots]
        loop.steps, loop.last_steps = loop.roots[0].steps, loop.roots[-1].steps
        if result.is_exact:
            check_exact(result, loop, counts)


def give_budgets(result: Result) -> None:
    """Gives each node outside rounds, and each loop that follows another one, the number of steps that are left."""
    claimed = result.contract.steps
    assert claimed
    know, start = result.knowledge, result.root.state

    def check(budget: Form, what: Callable[[int], str]) -> None:
        """Raises an error if the number of steps that are left may be negative. `what` says it with the number of steps taken."""
        if claimed and not is_natural(budget):
            taken = claimed.count.constant - budget.get(None, 0)
            raise NotProved(claimed.line, f"`{claimed.text}`: {what(taken)}")

    result.root.budget = form_of(claimed.count, start, start)
    left = [result.root]
    while left:
        node = left.pop()
        if node.form[0] == "enter":
            check(node.budget, lambda taken: f"the function takes {counted(taken, '{} step', '{} steps')} before its loop")
            continue
        for after in node.nexts:
            after.budget = left_after(know, node.budget, node.spent or {None: 1}, node.passed)
            if node.spent:
                check(after.budget, lambda taken: f"the function takes up to {counted(taken, '{} step', '{} steps')}, or more")
            left.append(after)
        if node.form[0] in ("end", "split"):
            check(minus(node.budget, {None: 1}), lambda taken: f"the function takes up to {counted(taken, '{} step', '{} steps')}")
    for loop in result.loops:
        if loop.after:
            rests = [left_after(know, budget, rounds_of(result, loop, node), node.passed)
                     for node, budget in entries_of(result, loop)]
            rest = min(rests, key=lambda one: one.get(None, 0))
            check(rest, lambda taken: f"the function takes up to {counted(taken, '{} step', '{} steps')} before the loop "
                                                          f"{loop.after.label if loop.after else ''}, or more")
            loop.after.budget = rest


def entries_of(result: Result, loop: Loop) -> list[tuple[Node, Form]]:
    """Returns the nodes at which a loop is entered, with the numbers of steps that are left there."""
    leaves = [node for other in result.loops for node in other.leaves]
    return [(node, loop.budget if any(node is one for one in leaves) else node.budget) for node in loop.entries]


def rounds_of(result: Result, loop: Loop, node: Node) -> Form:
    """Returns the steps of all rounds of a loop that is entered in a node."""
    measure, is_exact = measure_of(loop, node.state, result.root.state), result.is_exact
    rounds: Form = {key: loop.steps * many for key, many in measure.items()}
    rounds[None] = rounds.get(None, 0) + (loop.last_steps if is_exact else loop.steps)
    return rounds


def check_exact(result: Result, loop: Loop, counts: list[set[int]]) -> None:
    """Checks that each round of a loop takes the same number of steps, and that the last round is the one in which `decreases` is
    zero."""
    steps = result.contract.steps
    line, text = (steps.line, steps.text) if steps else (0, "")
    if any(len(count) != 1 for count in counts):
        longest: set[int] = max(counts, key=len)
        taken = " or ".join(map(str, sorted(longest)))
        raise NotProved(line, f"`{text}`: a round of {loop.label} takes {taken} steps, expected one number: claim `within`")
    kinds = [ways_from(root) for root in loop.roots]
    if kinds[0] != {"again"} or "again" in kinds[1]:
        raise NotProved(line, f"`{text}`: the loop {loop.label} may end while `decreases` is not zero, or go on when it is, expected "
                              "a count that falls by one in each round, down to zero: claim `within`")
    if len(kinds[1]) > 1:
        raise NotProved(line, f"`{text}`: after the loop {loop.label} the function ends in some cases and enters another loop in others, "
                              "expected one of the two in all cases: claim `within`")


def ways_from(root: Node) -> set[str]:
    """Returns how the ways from a node end: with the function, with the round, or at another loop."""
    nodes = list(reachable(root))
    ends = any(node.form[0] == "split" and any(way.end and way.refuted is None for way in node.form[2]) for node in nodes)
    return {node.form[0] for node in nodes if node.form[0] in ("end", "again", "enter")} | ({"end"} if ends else set())


def reachable(root: Node) -> Iterable[Node]:
    """Yields the nodes that a run reaches from a node."""
    left = [root]
    while left:
        node = left.pop()
        yield node
        left += node.nexts


def count(result: Result) -> None:
    """Counts the steps of a function, and compares them with its claim."""
    counts = count_steps(result.root)
    result.steps = result.root.steps
    claimed = result.contract.steps
    if not claimed:
        return
    if claimed.count.constant < result.steps if not claimed.is_exact else counts != {claimed.count.constant}:
        taken = " or ".join(map(str, sorted(counts))) if claimed.is_exact else f"up to {result.steps}"
        raise NotProved(claimed.line, f"`{claimed.text}`: the function takes {taken} step{'' if counts == {1} else 's'}")


def count_steps(node: Node) -> set[int]:
    """Returns the numbers of steps that a function can take from a node, and stores the largest one in each node."""
    counts: dict[int, set[int]] = {}
    for one in reversed(list(reachable(node))):
        after: set[int] = set().union(*(counts[other.number] for other in one.nexts)) if one.nexts else {0}
        counts[one.number] = {one.cost + taken for taken in after} if one.form[0] not in ("enter", "again") else {0}
        if one.form[0] == "split":
            counts[one.number] = {1 + taken for way in one.form[2] if way.refuted is None
                                  for taken in (counts[way.node.number] if way.node else {0})} or {1}
        one.steps = max(counts[one.number])
    return counts[node.number]
