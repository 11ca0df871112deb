"""The proofs of claims: which facts each of them needs, before the facts are written."""
from __future__ import annotations

from .budgets import reachable
from .claims import AnyClaim, Claim, Decimal, Named, Others
from .codes import Loop, NotProved, Result, claim_text, form_of, key_of, measure_of, plain, value_of
from .linear import follows
from .symbols import Fact, Key, Node, Span, State, keys_in, literal, signed_parts


def prepare(result: Result) -> None:
    """Stores the proofs of claims in the nodes of a function."""
    for end in result.ends:
        end.proofs = [proof_of(result, claim, end.state, result.root.state, end.passed) for claim in result.contract.ensures]
    for loop in result.loops:
        for node in [*loop.entries, *loop.backs]:
            node.proofs = proofs_at_loop(result, loop, node)
    for root in [result.root, *(root for loop in result.loops for root in loop.roots)]:
        for node in reachable(root):
            if node.selects:
                node.proofs = [omega(result.knowledge.reach([node.selects[0]], node.passed))]
            if node.form[0] == "call":
                node.proofs = proofs_at_call(result, node)


def omega(facts: list[Fact]) -> str:
    """Returns the proof of a comparison from facts."""
    return f"omega (arith{''.join(f', {one.name}' for one in facts)})"


def proof_of(result: Result, claim: AnyClaim, now: State, before: State, passed: list[Fact]) -> str:
    """Returns the proof of a claim about a state."""
    know = result.knowledge
    if isinstance(claim, Named):
        return result.banks.active(now, claim.page) if claim.name == "BANK" else known_value(claim, now)
    if isinstance(claim, Decimal):
        key = key_of(claim.atom, before if claim.atom.old else now)
        found = know.decimals.proof(key.name, key.lo, key.hi) if isinstance(key, Span) else None
        if found is None:
            raise NotProved(claim.line, f"`{claim.text}`: it is not known that these digits are 0 to 9: require it, or claim it for the "
                                        "function that is called, or in the invariant")
        return found
    if isinstance(claim, Others):
        proof = know.others_as_before(now.of("ram"), before.of("ram"), claim.addresses)
        if not isinstance(proof, str):
            where = "a register of memory" if proof is None else f"REG[{proof:03X}]"
            raise NotProved(claim.line, f"`{claim.text}`: {where} may have changed, expected a claim about it here, or that a function or "
                                        "a loop leaves it as before")
        return proof
    facts = know.reach(keys_of(claim, now, before), passed, is_wide=not is_known(result, claim, now, before, passed))
    names = "".join(f", {one.name}" for one in facts)
    return f"λ same. omega (arith, same{names})" if claim.relation == "<>" else omega(facts)


def known_value(claim: Named, now: State) -> str:
    """Returns the proof that the mode or the active pointer is what a claim says."""
    name, value = value_of(claim) or ("", "")
    found = now.of(name)
    if found != value:
        why = (f"but `{claim_text(name, found)}`" if literal(found) else
               "which is not known: put SETHEX, SETDEC, SLCT P or SLCT Q before")
        raise NotProved(claim.line, f"`{claim.text}` is claimed here, {why}")
    return "refl"


def keys_of(claim: Claim, now: State, before: State) -> list[Key]:
    """Returns the numbers of a comparison."""
    return [key_of(one, before if one.old else now) for one in claim.atoms()]


def is_known(result: Result, claim: AnyClaim, now: State, before: State, passed: list[Fact], is_wide: bool = False) -> bool:
    """Returns whether a comparison is found to follow from the facts about its numbers. The answer no can be wrong. With `is_wide`, tests
    of other numbers that depend on the same ones count too."""
    if not isinstance(claim, Claim):
        return True
    left, right = form_of(claim.left, now, before), form_of(claim.right, now, before)
    facts = result.knowledge.reach(keys_of(claim, now, before), passed, False, is_wide)
    return follows([one for fact in facts for one in fact.rows], left, claim.relation, right)


def proofs_at_loop(result: Result, loop: Loop, node: Node) -> list[str]:
    """Returns the proofs of an invariant at the label of a loop, then, if the count is a difference, that it is not negative, and last
    that it falls, or that the steps suffice."""
    found = [proof_of(result, claim, node.state, result.root.state, node.passed) for claim in loop.contract.invariant]
    measure = measure_of(loop, node.state, result.root.state)
    if signed_parts(measure)[1]:
        found.append(omega(result.knowledge.reach(keys_in(measure), node.passed, is_wide=True)))
    keys: tuple[Key, ...] = keys_in(measure)
    if any(node is one for one in loop.backs):
        keys += keys_in(measure_of(loop, loop.roots[0].state, result.root.state))
    else:
        keys += keys_in(node.budget or loop.budget, loop.after.budget if loop.after else {})
    return [*found, omega(result.knowledge.reach(keys, node.passed))]


def proofs_at_call(result: Result, node: Node) -> list[str]:
    """Returns the proofs of the requirements of a function that is called, and last the proof that the steps suffice. Also notes the
    requirements of which it is not found that they follow."""
    callee, inner, steps = node.form[1], node.form[3], node.form[6]
    required = plain(callee.contract.requires)
    found = [proof_of(result, claim, inner, inner, node.passed) for claim in required]
    node.doubts = [claim.text for claim in required if not is_known(result, claim, inner, inner, node.passed, True)]
    keys = keys_in(steps, node.budget, node.nexts[0].budget) if keys_in(steps) else ()
    return [*found, omega(result.knowledge.reach(keys, node.passed))]
