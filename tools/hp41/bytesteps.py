"""Steps of symbolic execution for the words that copy bytes, and for C=C OR A and C=C AND A."""
from __future__ import annotations

from typing import TYPE_CHECKING

from .codes import register_of
from .symbols import Form, Node, Span, Value, argument, status_bit, status_byte, with_status

if TYPE_CHECKING:
    from .wordsteps import Step

# The name of the transfer, and which of both bytes are copied: from C, and to C.
BYTES = {"G=C": ("CToG", True, False), "C=G": ("GToC", False, True), "C<>G": ("ExchangeCG", True, True),
         "ST=C": ("CToStatus", True, False), "C=ST": ("StatusToC", False, True), "C<>ST": ("ExchangeCStatus", True, True),
         "T=ST": ("StatusToT", False, False), "ST=0": ("", True, False), "C=C OR A": ("or", False, False),
         "C=C AND A": ("and", False, False)}
PLACES, HIGH_BITS, BITS = 14, range(8, 14), range(8)


def after_byte(step: Step) -> Node:
    """Returns the node after an instruction that copies bytes, or that takes bits of C and A together."""
    text = step.instruction.text
    transfer, is_from_c, is_to_c = BYTES[text]
    if transfer in ("or", "and"):
        return bits_taken(step, transfer)
    begin = f"straight {step.state_text()} {step.node.whole} refl"
    lemma = f"status_byte_cleared {begin} {step.at_next}" if text == "ST=0" else f"transferred {begin} transfers.{transfer} {step.at_next}"
    if text == "T=ST":
        return step.step(lemma, step.state.after(step.next_pc, t=status_byte(step.state.of("status"))))
    of_g = "G" in text
    place = pointed(step) if of_g else 0
    changes: dict[str, str] = {}
    if is_from_c:
        changes["g" if of_g else "status"] = step.fresh("g" if of_g else "status")
    names = [f"{step.fresh('c')}_{half}" for half in ("low", "high")]
    if is_to_c:
        changes["c"] = names[1]
    node = step.step(lemma, step.state.after(step.next_pc, **changes))
    if is_to_c:
        load_byte(step, node, names, place, step.state.of("g") if of_g else status_byte(step.state.of("status")))
    if is_from_c and of_g:
        take_g(step, node, changes["g"], place)
    elif is_from_c:
        take_status(step, node, changes["status"], text == "ST=0")
    return node


def pointed(step: Step) -> int:
    """Returns the place of the active pointer, which must be known."""
    active = step.state.of("active")
    place = step.state.of(active.lower()) if active in ("P", "Q") else ""
    if not place.isdigit():
        raise step.unsupported("the active pointer is not known here: put SLCT P or SLCT Q, and R= n, before, or require it, as in "
                               "`requires PT = P, P = 3`")
    return int(place)


def load_byte(step: Step, node: Node, names: list[str], place: int, byte: str) -> None:
    """Names C after a byte was written at a place: first its low digit, then its high digit."""
    know, before = step.run.knowledge, step.state.of("c")
    register = know.register(before)
    halves = (f"({byte} % 16)", f"({byte} / 16)")
    owner = next((one for name, one in know.owners.items() if name in byte), know.root)
    assert owner
    for half in halves:
        if half not in know.others:
            whole: Form = {halves[0]: 1, halves[1]: 16}
            know.others[half] = [know.fact(owner, {byte: 1}, "=", whole, "omega arith")]
    for name, at, half, limit in zip(names, (place, (place + 1) % PLACES), halves, ("omega arith", byte_limit(know.root, byte))):
        step.node.abbreviations.append((name, "List ℕ", f"slice_set {argument(before)} {at} {half}"))
        register = f"(register_set {argument(before)} {at} {half} {argument(register)} ({limit}))"
        know.add(Value(name, "digit", node, register, before, lo=at, hi=at, digits=(half,)))
        before = name


def byte_limit(root: Node | None, byte: str) -> str:
    """Returns the proof that the high digit of a byte is below 16."""
    if byte.endswith(" % 256)"):
        return "omega arith"
    return f"omega (arith, {root.whole if root else ''}.processor.g)" if byte == "s.processor.g" else f"omega (arith, {byte}_limit)"


def take_g(step: Step, node: Node, name: str, place: int) -> None:
    """Names G after it received two digits of C."""
    know, c = step.run.knowledge, argument(step.state.of("c"))
    high = (place + 1) % PLACES
    know.cut(place, place)
    know.cut(high, high)
    register = argument(know.register(step.state.of("c")))
    limits = ", ".join(f"{register}.each {at} 0 (omega (arith, {register}.size))" for at in (place, high))
    step.node.abbreviations.append((name, "ℕ", f"slice_index {c} {place} + 16 * slice_index {c} {high}"))
    step.node.definitions.append((f"{name}_limit", f"{name} < 256", f"omega (arith, {limits})"))
    know.owners[name] = node
    digits: Form = {Span(step.state.of("c"), place, place): 1, Span(step.state.of("c"), high, high): 16}
    know.others[name] = [know.fact(node, {name: 1}, "=", digits, f"omega (arith, one_digit 16 {c} {place}, one_digit 16 {c} {high})"),
                         know.fact(node, {name: 1}, "<", {None: 256}, f"{name}_limit")]


def take_status(step: Step, node: Node, name: str, is_zero: bool) -> None:
    """Names the status bits after S7 to S0 received two digits of C, or zero."""
    know, before, c = step.run.knowledge, step.state.of("status"), argument(step.state.of("c"))
    register = argument(know.register(step.state.of("c")))
    byte = "0" if is_zero else f"(slice_index {c} 1 * 16 + slice_index {c} 0)"
    limits = ", ".join(f"{register}.each {at} 0 (omega (arith, {register}.size))" for at in (0, 1))
    step.node.abbreviations.append((name, "ℕ", f"{before} / 256 * 256 + {byte}"))
    step.node.definitions.append((f"{name}_limit", f"{byte} < 256", "omega arith" if is_zero else f"omega (arith, {limits})"))
    know.owners[name] = node
    know.cut(0, 0)
    know.cut(1, 1)
    digits: Form = {} if is_zero else {Span(step.state.of("c"), 0, 0): 1, Span(step.state.of("c"), 1, 1): 16}
    ones = "" if is_zero else f", one_digit 16 {c} 0, one_digit 16 {c} 1"
    whole = know.fact(node, {status_byte(name): 1}, "=", digits,
                      f"omega (arith, byte_in_status {argument(before)} {byte} {name}_limit{ones})")
    parts: Form = {status_bit(bit, name): 1 << bit for bit in BITS}
    bits = know.fact(node, {status_byte(name): 1}, "=", parts, f"status_bits {with_status(name)}")
    know.others[status_byte(name)] = [whole, bits]
    for bit in BITS:
        key = status_bit(bit, name)
        know.others[key] = [bits, know.fact(node, {key: 1}, "<=", {None: 1}, f"carry_at_most {key.removeprefix('carry_digit ')}")]
    for bit in HIGH_BITS:
        know.others[status_bit(bit, name)] = [know.fact(node, {status_bit(bit, name): 1}, "=", {status_bit(bit, before): 1},
                                                        f"ap carry_digit (status_{bit}_kept {with_status(before)} {byte} {name}_limit)")]


def bits_taken(step: Step, kind: str) -> Node:
    """Returns the node after C=C OR A or C=C AND A."""
    c, a, name = step.state.of("c"), step.state.of("a"), step.fresh("c")
    lemma = f"{kind}_taken straight {step.state_text()} {step.node.whole} refl {step.at_next}"
    node = step.step(lemma, step.state.after(step.next_pc, c=name))
    step.put(node, "c", name, f"digits_{kind} {argument(c)} {argument(a)}",
             Value(name, kind, node, register_of(node, "c"), c, y=a))
    return node
