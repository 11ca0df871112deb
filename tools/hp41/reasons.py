"""Why a part of a proof may fail, in words for a writer of modules: at which instruction, and on which way to it."""
from __future__ import annotations

from .codes import Code, Loop, Result
from .symbols import Node

# How many jumps on the way to an instruction are named, the last ones.
MOST_JUMPS = 3

# What an instruction does if its condition is true, by its second word.
DOES, JUMPS = {"RTN": ("returns", "return"), "XQ": ("calls", "call")}, ("jumps", "jump")
NOT_KNOWN = "it does not follow from what is known"


class Reasons:
    """The reasons why parts of the proof of a function may fail. `ways` are the jumps on the way to the node that is being written: each
    with its source line, and whether it is taken."""

    def __init__(self, code: Code, result: Result) -> None:
        """Finds the source lines at which the function returns in several cases."""
        self.code, self.result = code, result
        self.ways: list[tuple[int, bool]] = []
        lines = [end.line for end in result.ends]
        self.twice = {line for line in lines if lines.count(line) > 1}

    def instruction(self, line: int) -> str:
        """Returns the instruction in a source line, with the number of the line."""
        return f"`{self.code.texts.get(line, '')}` in {self.code.numbered(line, self.result.contract.line)}"

    def way(self, last: int) -> str:
        """Returns the last jumps on the way to the node that is being written, before the instruction in a line."""
        found, ways = [], self.ways[:-1] if self.ways and self.ways[-1][0] == last else self.ways
        for line, is_taken in ways[-MOST_JUMPS:]:
            does, verb = next((DOES[word] for word in self.code.texts.get(line, "").split() if word in DOES), JUMPS)
            found.append(f"{self.instruction(line)} {does if is_taken else f'does not {verb}'}")
        return f", if {' and '.join(found)}" if found else ""

    def at_end(self, node: Node) -> str:
        """Returns why a claim may not follow at the return of the function in a node."""
        return f"{NOT_KNOWN} at {self.instruction(node.line)}{self.way(node.line) if node.line in self.twice else ''}"

    def at_loop(self, loop: Loop, node: Node) -> str:
        """Returns why an invariant may not follow when a loop begins, or after a round."""
        return f"{NOT_KNOWN} {self.when(loop, node)}"

    def when(self, loop: Loop, node: Node) -> str:
        """Returns when the label of a loop is reached."""
        if any(node is one for one in loop.backs):
            return f"after a round of the loop {loop.label} that ends at {self.instruction(node.line)}{self.way(node.line)}"
        before = f", after {self.instruction(node.line)}" if node.line in self.code.texts else ""
        return f"when the loop {loop.label} begins{before}"

    def negative(self, loop: Loop, node: Node) -> str:
        """Returns that the count of a loop may be negative."""
        return f"it may be negative {self.when(loop, node)}: claim in the invariant what excludes this"

    def falls(self, loop: Loop, node: Node) -> str:
        """Returns that the count of a loop may not fall."""
        return f"it may not be smaller {self.when(loop, node)}"

    def falls_by_one(self, loop: Loop, node: Node) -> str:
        """Returns that the count of a loop may not fall by one."""
        return f"it may not be smaller by exactly one {self.when(loop, node)}: claim `within`, not `in`"

    def suffices(self, loop: Loop, node: Node) -> str:
        """Returns that the rounds of a loop may take more steps."""
        number = f"{loop.steps} * d + {loop.last_steps}" if self.result.is_exact else f"up to {loop.steps} * (d + 1)"
        return f"{NOT_KNOWN} {self.when(loop, node)}: the loop takes {number} steps if the number in `decreases` is d there"

    def at_call(self, node: Node) -> str:
        """Returns why a call may not be possible."""
        callee = node.form[1].label
        if node.doubts:
            required = " and ".join(f"`{text}`" for text in node.doubts)
            return f"{callee} requires {required}, which does not follow from what is known at the call"
        return f"a requirement of {callee}, or the number of its steps, does not follow from what is known at the call"
