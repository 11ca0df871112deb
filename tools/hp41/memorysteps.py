"""Steps of symbolic execution for the words that select, read and write registers of memory."""
from __future__ import annotations

from typing import TYPE_CHECKING

from .symbols import Node, Ram, Span, argument, literal, register_at

if TYPE_CHECKING:
    from .wordsteps import Step

MEMORY = ("RAM SLCT", "READ DATA", "WRIT DATA")
BLOCK, WORDS = 16, 1024


def is_memory(text: str) -> bool:
    """Returns whether an instruction works on memory."""
    return text in MEMORY or text.startswith(("READ ", "WRIT "))


def after_memory(step: Step) -> Node:
    """Returns the node after an instruction that works on memory."""
    text = step.instruction.text
    if text == "RAM SLCT":
        return selected(step)
    address = step.state.of("selected")
    if not literal(address):
        raise step.unsupported("the selected address is not known here: put RAM SLCT before, with a known number in C.SX, or require it, "
                               "as in `requires RAM = 0`")
    at = int(address) if step.operand == "DATA" else int(address) // BLOCK * BLOCK + int(step.operand)
    if not step.run.knowledge.use(at):
        raise step.unsupported(f"there is no register at the address {at:03X}, expected one from 000 to 00F or from 0C0 to 1FF")
    begin = f"straight {step.state_text()} {step.node.whole} refl"
    register = "" if step.operand == "DATA" else f" {step.operand}"
    limits = "" if step.operand == "DATA" else " (omega arith, omega arith)" if text.startswith("READ") else " (omega arith)"
    if text.startswith("READ"):
        lemma = f"{'register' if register else 'data'}_read {begin}{register}{limits} {step.at_next}"
        return step.step(lemma, step.state.after(step.next_pc, selected=str(at), c=register_at(step.state.of("ram"), at)))
    return written(step, at, f"{'register' if register else 'data'}_written {begin}{register}{limits} {step.at_next}")


def selected(step: Step) -> Node:
    """Returns the node after RAM SLCT."""
    know, c = step.run.knowledge, step.state.of("c")
    digits = [know.digit(c, place, step.node.passed) for place in range(3)]
    known = [digit for digit in digits if digit is not None]
    if len(known) < 3:
        raise step.unsupported("the number in C.SX is not known here: put C=0 S&X or LDI before, or require it, as in `requires C.SX = 0`")
    number = sum(digit << 4 * place for place, digit in enumerate(known))
    step.node.selects = (Span(c, 0, 2), number)
    lemma = (f"address_selected straight {step.state_text()} {step.node.whole} refl {number % WORDS} "
             f"(address_is {argument(c)} {number} {number % WORDS} SELECTED refl) {step.at_next}")
    return step.step(lemma, step.state.after(step.next_pc, selected=str(number % WORDS)))


def written(step: Step, address: int, lemma: str) -> Node:
    """Returns the node after a register of memory was written."""
    know, before, name = step.run.knowledge, step.state.of("ram"), step.fresh("ram")
    c = step.state.of("c")
    node = step.step(lemma, step.state.after(step.next_pc, selected=str(address), ram=name))
    step.node.abbreviations.append((name, "RegisterMap", f"with_register {before} {address:#05x} {argument(c)}"))
    has = f"{name}_has"
    know.rams[name] = Ram(name, "write", node, has, before, address, c)
    step.node.memories.append(name)
    return node
