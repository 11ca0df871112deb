"""Claims about a state of which only claims are known: after a call, or at the label of a loop. Some components of this state are those of a
state before it, so that what a claim says of them is a fact about the state before."""
from __future__ import annotations

from .claims import Atom, Claim, Decimal, Sum
from .codes import form_of, key_of, negative_free
from .statements import RELATIONS, claim_text
from .symbols import Form, Node, State, argument, equals_text, form_text, start_of, state_of

# Components of the atoms that have another name.
COMPONENTS = {"CY": "carry", "RAM": "selected", "ST": "status"}

# The variable for which the state is substituted.
VARIABLE = "any"


class Known:
    """A state of which only claims are known: its variable in the prover, the proof that it is the state of a node, and the text of the
    state to which `old` refers."""

    def __init__(self, variable: str, same: str, old: str) -> None:
        """Takes the variable, the proof and the text."""
        self.variable, self.same, self.old = variable, same, old

    def is_own(self, atom: Atom, state: State) -> bool:
        """Returns whether a number of the state is one of its variable."""
        name = component_of(atom)
        return atom.old or state.of(name) == start_of(name, self.variable)

    def claimed(self, node: Node, claim: Claim | Decimal, before: State, proof: str) -> str:
        """Returns the proof of a claim about the components of a node's state. A definition is added to the node if it needs one."""
        is_trivial = isinstance(claim, Claim) and form_of(claim.left, node.state, before) == form_of(claim.right, node.state, before)
        if is_trivial or all(self.is_own(atom, node.state) for atom in claim.atoms()):
            return proof
        if isinstance(claim, Decimal):
            key = key_of(claim.atom, before if claim.atom.old else node.state)
            statement = f"IsDecimal {argument(key.name)} {key.lo} {key.hi}" if not isinstance(key, str) else ""
        else:
            statement = comparison(claim, node.state, before)
        return self.define(node, statement, claim_text(claim, VARIABLE, self.old), proof)

    def counted(self, node: Node, measure: Sum, start: State, left: str, proof: str) -> str:
        """Returns the proof that a number is the count of a loop in a node's state."""
        if all(self.is_own(atom, node.state) for atom in measure.atoms()):
            return proof
        here: Form = form_of(measure, node.state, start)
        return self.define(node, equals_text(left, here), equals_text(left, form_of(measure, state_of(VARIABLE), start)), proof)

    def define(self, node: Node, statement: str, any_text: str, proof: str) -> str:
        """Adds a definition to a node, and returns its name: a statement about the state, by the proof of the one about its variable."""
        name = f"known_{node.number}_{len(node.definitions) + 1}"
        node.definitions.append((name, statement, f"subst (λ ({VARIABLE} : Nut). {any_text}) ({self.same}) {proof}"))
        return name


def component_of(atom: Atom) -> str:
    """Returns the component of a state that has a number."""
    if atom.address is not None:
        return "ram"
    is_bit = atom.lo is None and atom.name.startswith("S")
    return COMPONENTS.get(atom.name, "status" if is_bit else atom.name.lower())


def comparison(claim: Claim, now: State, before: State) -> str:
    """Returns a comparison of the numbers of two states."""
    left, right = (form_text(form_of(side, now, before)) for side in negative_free(claim.left, claim.right))
    relation = claim.relation
    if relation in (">", ">="):
        left, right, relation = right, left, {">": "<", ">=": "<="}[relation]
    return f"{left} {RELATIONS[relation]} {right}"
