"""Rows of .ci/prove-module about .ci/prove-doubts.asm, whose claims are false only from rare states: why parts of the proofs may fail."""

KNOWN = "it does not follow from what is known"
AT_LOOP, AT_EXACT = "when the loop ROUND begins, after `NOP` in line 20", "when the loop EACH begins, after `NOP` in line 31"
ROUND = "after a round of the loop ROUND that ends at `JNC :ROUND` in line 28, if `?NC RTN` in line 24 does not return"
EXACT = "after a round of the loop EACH that ends at `JNC :EACH` in line 38, if `?NC RTN` in line 35 does not return"
NEEDS = "NEEDS requires `3 * C.M + 5 * A.M <> 0DDDDDDD`, which does not follow from what is known at the call"

# What must be among the reasons.
REASONS = [
    f"{KNOWN} at `?C RTN` in line 4",
    f"{KNOWN} at `RTN` in line 6",
    f"{KNOWN} at `RTN` in line 11, if `JNC :JOINED_1` in line 9 jumps",
    f"{KNOWN} at `RTN` in line 11, if `JNC :JOINED_1` in line 9 does not jump",
    NEEDS,
    f"{KNOWN} {AT_LOOP}",
    f"{KNOWN} {ROUND}",
    f"it may be negative {AT_LOOP}: claim in the invariant what excludes this",
    f"it may be negative {ROUND}: claim in the invariant what excludes this",
    f"it may not be smaller {ROUND}",
    f"{KNOWN} {AT_LOOP}: the loop takes up to 6 * (d + 1) steps if the number in `decreases` is d there",
    f"it may not be smaller by exactly one {EXACT}: claim `within`, not `in`",
    f"{KNOWN} {AT_EXACT}: the loop takes 5 * d + 2 steps if the number in `decreases` is d there",
    "a requirement of PLUS, or the number of its steps, does not follow from what is known at the call",
]

# Lines that the tool prints, with `--verbose`, when it tries to prove the functions.
UNPROVED = [
    "prove-module: proving 6 theorems\n",
    f"a.asm:2: `3 * C.M + 5 * A.M <> 0DDDDDDD`: not proved: {KNOWN} at `?C RTN` in line 4\n",
    f"a.asm:2: `3 * C.M + 5 * A.M <> 0DDDDDDD`: not proved: {KNOWN} at `RTN` in line 6\n",
    f"a.asm:7: `3 * C.M + 5 * A.M <> 0DDDDDDD`: not proved: {KNOWN} at `RTN` in line 11, if `JNC :JOINED_1` in line 9 jumps\n",
    f"a.asm:13: not proved: {NEEDS}\n",
    f"a.asm:21: `3 * C.M + 5 * A.M <> 0DDDDDDD`: not proved: {KNOWN} {ROUND}\n",
    f"a.asm:22: `decreases C.SX - A.SX`: not proved: it may not be smaller {ROUND}\n",
    f"a.asm:32: `3 * C.M + 5 * A.M <> 0DDDDDDD`: not proved: {KNOWN} {AT_EXACT}\n",
    "a.asm:17: NEEDS: proved for every state that meets its requirements: 1 claim, within 2 steps; the bench tried 150 states\n",
]
