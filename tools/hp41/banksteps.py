"""Steps of symbolic execution for ENBANK, and for calls of functions that leave another bank active."""
from __future__ import annotations

from typing import TYPE_CHECKING

from .activebanks import NUMBERS, PAGES
from .codes import Result
from .symbols import Node, State

if TYPE_CHECKING:
    from .wordsteps import Step

VARIABLE = "other_pages"


def any_pages(state: State) -> str:
    """Returns a state with other pages as a term; the pages are a variable."""
    return State(state.pc, state.returns, {**state.terms, PAGES: VARIABLE}).text()


def enabled(step: Step) -> Node:
    """Returns the node after ENBANK1 to ENBANK4."""
    banks, number = step.run.banks, int(step.instruction.text[-1])
    if not step.run.code.is_project:
        raise step.unsupported()
    active, equal = banks.after(step.state, (step.state.pc >> 12, number), step.instruction.line, f"`{step.instruction.text}`")
    state = banks.with_active(step.state.after(step.next_pc), active)
    lemma = f"bank_enabled straight {step.state_text()} {step.node.whole} refl {NUMBERS[number - 1]} {step.at_next}"
    return step.step(f"subst (λ {VARIABLE}. StepsTo {step.state_text()} {any_pages(state)}) ({equal}) ({lemma})" if equal else lemma, state)


def back_from(step: Step, callee: Result, state: State) -> tuple[State, str]:
    """Returns the state after the call of a function, with the banks that it leaves active, and the proof that the pages are those of this
    state; an empty text if they are the same term. `state` has the pages that are there at the call."""
    banks, line = step.run.banks, step.instruction.line
    for page, number in sorted(callee.banks.start.items()):
        now = banks.number_in(state, page)
        if now != number:
            raise step.unsupported(f"{callee.label} requires bank {number} of page {page:X}, but bank {now} is active here")
    end = callee.banks.end
    if end is None:
        return state, ""
    active, equal = banks.after(state, end, line, f"`{step.instruction.text}`")
    return banks.with_active(state, active), equal


def left_by(done: str, after: Node, pages: str) -> str:
    """Returns the proof that a function that was called has left a state."""
    return f"({done}.only ∙ ap (λ {VARIABLE}. {any_pages(after.state)}) ({pages}))" if pages else f"{done}.only"
