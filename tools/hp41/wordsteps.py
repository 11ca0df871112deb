"""The steps of symbolic execution: for each instruction the states after it, and the lemma of h41_reasoning that proves the step."""
from __future__ import annotations

from typing import TYPE_CHECKING, Callable

from .activebanks import in_pages
from .banksteps import back_from, enabled, left_by
from .budgets import most
from .bytesteps import BYTES, after_byte
from .claims import FIELDS
from .codes import ADDRESSES, Instruction, NotProved, Result, claim_text, form_of, known_at_start, register_of
from .linked import Known
from .memorysteps import after_memory, is_memory
from .symbols import WIDE, Fact, Form, Node, Span, State, Value, Way, argument, keys_in, literal, start_of, status_bit, with_status

if TYPE_CHECKING:
    from .executing import Execution

# Why an instruction has no step.
UNSUPPORTED = "tools/prove-module does not support this instruction: see docs/PROVE-YOUR-MODULE.md, What is not supported"

FIELD_NAMES = {"@R": "AtPointer", "S&X": "SignAndExponent", "R<": "ToPointer", "ALL": "All", "P-Q": "PToQ", "XS": "ExponentSign",
               "M": "Mantissa", "MS": "MantissaSign"}

# Sums and differences: the lemma, the register that is changed, both operands, and the carry in.
SUMS = {"A=A+B": ("b_added_to_a", "a", "a", "b", "false"), "A=A+C": ("c_added_to_a", "a", "a", "c", "false"),
        "A=A+1": ("a_incremented", "a", "a", "", "true"), "C=C+C": ("c_doubled", "c", "c", "c", "false"),
        "C=A+C": ("a_added_to_c", "c", "a", "c", "false"), "C=C+1": ("c_incremented", "c", "c", "", "true")}
DIFFERENCES = {"A=A-B": ("b_subtracted_from_a", "a", "a", "b", "false"), "A=A-1": ("a_decremented", "a", "a", "", "true"),
               "A=A-C": ("c_taken_from_a", "a", "a", "c", "false"), "C=A-C": ("c_subtracted_from_a", "c", "a", "c", "false"),
               "C=C-1": ("c_decremented", "c", "c", "", "true"), "C=0-C": ("c_negated", "c", "", "c", "false"),
               "C=-C-1": ("c_complemented", "c", "", "c", "true")}
# Copies: the operation, and for each register that is changed the register that is copied.
COPIES = {"A=0": ("ClearA", {"a": ""}), "B=0": ("ClearB", {"b": ""}), "C=0": ("ClearC", {"c": ""}),
          "A<>B": ("ExchangeAB", {"a": "b", "b": "a"}), "B=A": ("AToB", {"b": "a"}), "A<>C": ("ExchangeAC", {"a": "c", "c": "a"}),
          "C=B": ("BToC", {"c": "b"}), "B<>C": ("ExchangeBC", {"b": "c", "c": "b"}), "A=C": ("CToA", {"a": "c"})}
SHIFTS = {"RSHFA": ("ShiftRightA", "a", "right"), "RSHFB": ("ShiftRightB", "b", "right"), "RSHFC": ("ShiftRightC", "c", "right"),
          "LSHFA": ("ShiftLeftA", "a", "left")}
TESTS = {"?B#0": ("TestBNonzero", "b", ""), "?C#0": ("TestCNonzero", "c", ""), "?A#0": ("TestANonzero", "a", ""),
         "?A<C": ("TestALessThanC", "a", "c"), "?A<B": ("TestALessThanB", "a", "b"), "?A#C": ("TestADiffersFromC", "a", "c")}
TRANSFERS = {"M=C": ("CToM", {"m": "c"}), "C=M": ("MToC", {"c": "m"}), "C<>M": ("ExchangeCM", {"c": "m", "m": "c"}),
             "N=C": ("CToN", {"n": "c"}), "C=N": ("NToC", {"c": "n"}), "C<>N": ("ExchangeCN", {"c": "n", "n": "c"})}


class Step:
    """One step from a node: finds the next nodes, and the lemma that proves the step."""

    def __init__(self, run: Execution, node: Node, instruction: Instruction) -> None:
        """Takes the execution to which the node belongs, and the instruction there."""
        self.run, self.node, self.instruction, self.state = run, node, instruction, node.state
        self.name, _, self.operand = instruction.text.rpartition(" ")
        self.next_pc = (node.state.pc + len(instruction.words)) % ADDRESSES
        self.at_next: str = in_pages(instruction, run.banks.has(node.state))
        self.at_second: str = in_pages(instruction, run.banks.has(node.state), 1)

    def unsupported(self, why: str = "") -> NotProved:
        """Returns the error that the instruction is not supported."""
        return NotProved(self.instruction.line, f"`{self.instruction.text}`: "
                                                f"{why or UNSUPPORTED}")

    def nexts(self) -> list[Node]:
        """Returns the nodes after the step; none after the return of the function."""
        text, name = self.instruction.text, self.name
        if name in SUMS or name in DIFFERENCES:
            return [self.arithmetic()]
        if name in COPIES:
            return [self.copies()]
        if name in SHIFTS:
            return [self.shift()]
        if name in TESTS:
            return [self.test()]
        if text in TRANSFERS:
            return [self.transfer()]
        if text in BYTES:
            return [after_byte(self)]
        if is_memory(text):
            return [after_memory(self)]
        if name == "" and text.startswith("ENBANK"):
            return [enabled(self)]
        if name in ("JNC", "JC"):
            return self.short_jump()
        if name in ("?NC XQ", "?C XQ", "?NC GO", "?C GO"):
            return self.long_jump()
        if text == "RTN":
            return self.returned(f"returned straight {self.state_text()} {self.node.whole} {self.at_next}")
        if text in ("?C RTN", "?NC RTN"):
            return self.return_if()
        return [self.simple()]

    def state_text(self) -> str:
        """Returns the state before the step as a term."""
        return self.state.text()

    def go_on(self, state: State) -> Node:
        """Returns the node for the state after the step."""
        return self.run.node(state, self.instruction.line, self.node.passed)

    def step(self, lemma: str, state: State) -> Node:
        """Returns the node after a step that a lemma proves."""
        self.node.form = "step", lemma
        return self.go_on(state)

    def places(self) -> tuple[int, int]:
        """Returns the places of the field of the instruction."""
        pointers = [self.state.of(name) for name in ("p", "q", "active")]
        if self.operand in FIELDS:
            return FIELDS[self.operand]
        p, q, active = pointers
        needed = (p, q) if self.operand == "P-Q" else (active, {"P": p, "Q": q}.get(active, ""))
        if not all(map(literal, needed)):
            raise self.unsupported("the places of the field are not known: set the pointers before, after SLCT P or SLCT Q, or require "
                                   "them, as in `requires PT = P, P = 3`")
        here = int(p if active == "P" else q) if self.operand != "P-Q" else 0
        if self.operand == "P-Q":
            return int(p), int(q) if int(p) <= int(q) else 13
        return (here, here) if self.operand == "@R" else (0, here)

    def fresh(self, name: str) -> str:
        """Returns a new name for a register."""
        return f"{name}_{len(self.run.nodes)}"

    def operand_of(self, name: str) -> str:
        """Returns the term of an operand."""
        return self.state.of(name) if name else "zeros"

    def arithmetic(self) -> Node:
        """Returns the node after a sum or a difference."""
        is_sum = self.name in SUMS
        lemma, into, x, y, carry_in = (SUMS if is_sum else DIFFERENCES)[self.name]
        if not literal(self.state.of("base")):
            raise self.unsupported("the mode is not known here: put SETHEX or SETDEC before, or require it, as in `requires MODE = HEX`")
        lo, hi = self.places()
        count = len(self.run.nodes)
        z, carry, rule = f"{into}_{count}", f"carry_{count}", f"rule_{count}"
        self.node.form = "found", (f"{lemma} arithmetic {FIELD_NAMES[self.operand]} {self.state_text()} {self.node.whole} refl "
                                   f"{self.at_next}")
        x_term, y_term, before = self.operand_of(x), self.operand_of(y), self.state.of(into)
        node = self.go_on(self.state.after(self.next_pc, **{into: z}))
        node.state.terms["carry"] = carry
        base = 16 if self.state.of("base") == "Hexadecimal" else 10
        relation = "SumInto" if is_sum else "DifferenceInto"
        node.variables = [(z, "List ℕ"), (carry, "Bool"),
                          (rule, f"{relation} {base} {argument(before)} {argument(x_term)} {argument(y_term)} {carry_in} {lo} {hi} {z} "
                                 f"{carry}")]
        self.run.knowledge.add(Value(z, "sum" if is_sum else "difference", node, register_of(node, into), before, x_term, y_term, carry_in,
                                     carry, lo, hi, rule, base=base))
        return node

    def operated(self, operation: str, state: State) -> Node:
        """Returns the node after an operation on a field whose result is written out."""
        self.node.form = "step", (f"operated arithmetic {FIELD_NAMES[self.operand]} {self.state_text()} {self.node.whole} refl "
                                  f"operations.{operation} ({state.processor()}) (λ t is. is) {self.at_next}")
        return self.go_on(state)

    def copies(self) -> Node:
        """Returns the node after copies."""
        operation, copied = COPIES[self.name]
        lo, hi = self.places()
        terms = {into: f"copy_of {argument(self.state.of(into))} {argument(self.operand_of(x))} {lo} {hi}" for into, x in copied.items()}
        names = {into: self.fresh(into) for into in terms}
        node = self.operated(operation, self.state.after(self.next_pc, **names))
        for into, x in copied.items():
            self.put(node, into, names[into], terms[into], Value(names[into], "copy", node, register_of(node, into), self.state.of(into),
                                                                  self.operand_of(x), lo=lo, hi=hi))
        return node

    def put(self, node: Node, into: str, name: str, term: str, value: Value) -> None:
        """Gives a register of a node a name, in the module before the node, because the step to the node names it too."""
        self.node.abbreviations.append((name, "List ℕ", term))
        self.run.knowledge.add(value)

    def shift(self) -> Node:
        """Returns the node after a shift."""
        operation, into, way = SHIFTS[self.name]
        lo, hi = self.places()
        before, name = self.state.of(into), self.fresh(into)
        node = self.operated(operation, self.state.after(self.next_pc, **{into: name}))
        self.put(node, into, name, f"shifted_{way} {argument(before)} {argument(before)} {lo} {hi}",
                 Value(name, way, node, register_of(node, into), before, before, lo=lo, hi=hi))
        return node

    def test(self) -> Node:
        """Returns the node after a test of a field."""
        operation, x, y = TESTS[self.name]
        lo, hi = self.places()
        self.run.knowledge.cut(lo, hi)
        one, other = self.state.of(x), self.operand_of(y)
        answer = (f"is_nonzero {argument(one)} {lo} {hi}" if not y else
                  f"{'is_less' if '<' in self.name else 'is_different'} {argument(one)} {argument(other)} {lo} {hi}")
        state = self.state.after(self.next_pc)
        state.terms["carry"] = f"({answer})"
        node = self.operated(operation, state)
        node.test = self.name, one, other, lo, hi
        return node

    def transfer(self) -> Node:
        """Returns the node after a copy of a whole register."""
        transfer, copied = TRANSFERS[self.instruction.text]
        changes = {into: self.state.of(x) for into, x in copied.items()}
        return self.step(f"transferred straight {self.state_text()} {self.node.whole} refl transfers.{transfer} {self.at_next}",
                         self.state.after(self.next_pc, **changes))

    def simple(self) -> Node:
        """Returns the node after an instruction that changes little."""
        text, name, operand = self.instruction.text, self.name, self.operand
        begin = f"straight {self.state_text()} {self.node.whole} refl"
        after = self.state.after(self.next_pc)
        plain_words = {"NOP": "nothing_done", "?LLD": "battery_tested"}
        if text in plain_words:
            return self.step(f"{plain_words[text]} {begin} {self.at_next}", after)
        if text in ("SETHEX", "SETDEC"):
            lemma, base = ("hexadecimal_set", "Hexadecimal") if text == "SETHEX" else ("decimal_set", "Decimal")
            return self.step(f"{lemma} {begin} {self.at_next}", self.state.after(self.next_pc, base=base))
        if text in ("SLCT P", "SLCT Q"):
            return self.step(f"pointer_selected {begin} {operand} {self.at_next}", self.state.after(self.next_pc, active=operand))
        if text == "?P=Q" and literal(self.state.of("p")) and literal(self.state.of("q")):
            after.terms["carry"] = "true" if self.state.of("p") == self.state.of("q") else "false"
            return self.step(f"pointers_compared {begin} {self.at_next}", after)
        if name in ("R=", "LD@R", "?R=") or text in ("R=R+1", "R=R-1"):
            return self.pointer(begin)
        if name in ("SETF", "CLRF", "?FSET"):
            return self.status(begin)
        if name == "LDI":
            return self.load_word()
        if name == "RCR":
            return self.rotate(begin)
        if text == "CLRABC":
            return self.step(f"registers_cleared {begin} {self.at_next}", self.state.after(self.next_pc, a="zeros", b="zeros", c="zeros"))
        raise self.unsupported()

    def pointer(self, begin: str) -> Node:
        """Returns the node after an instruction of the active pointer."""
        active = self.state.of("active")
        if not literal(active):
            raise self.unsupported("the active pointer is not known here: put SLCT P or SLCT Q before, or require it, as in "
                                   "`requires PT = P`")
        name, place = active.lower(), self.state.of(active.lower())
        if self.name == "R=":
            return self.step(f"pointer_set {begin} {self.operand} (omega arith) {self.at_next}",
                             self.state.after(self.next_pc, **{name: self.operand}))
        if not literal(place):
            raise self.unsupported(f"the pointer {active} is not known here: set it before by `R= n`, or require it, as in "
                                   f"`requires {active} = 3`")
        if self.name == "?R=":
            state = self.state.after(self.next_pc)
            state.terms["carry"] = "true" if place == self.operand else "false"
            return self.step(f"pointer_tested {begin} {self.operand} (omega arith) {self.at_next}", state)
        if self.name == "LD@R":
            return self.load_digit(begin, name, int(place))
        up = self.instruction.text == "R=R+1"
        moved = str((int(place) + (1 if up else 13)) % 14)
        return self.step(f"pointer_{'up' if up else 'down'} {begin} {self.at_next}", self.state.after(self.next_pc, **{name: moved}))

    def load_digit(self, begin: str, pointer: str, place: int) -> Node:
        """Returns the node after LD@R."""
        digit, before, name = int(self.operand), self.state.of("c"), self.fresh("c")
        node = self.step(f"digit_loaded {begin} {digit} (omega arith) {self.at_next}",
                         self.state.after(self.next_pc, c=name, **{pointer: str((place + 13) % 14)}))
        self.put(node, "c", name, f"slice_set {argument(before)} {place} {digit}",
                 Value(name, "digit", node, register_of(node, "c"), before, lo=place, hi=place, digits=(digit,)))
        return node

    def load_word(self) -> Node:
        """Returns the node after LDI."""
        word, before, name = self.instruction.words[1], self.state.of("c"), self.fresh("c")
        digits = word & 15, word >> 4 & 15, word >> 8
        lemma = f"load_immediate straight {self.state_text()} {word} {self.node.whole} {self.at_next} {self.at_second} refl"
        node = self.step(lemma, self.state.after(self.next_pc, c=name))
        self.put(node, "c", name, f"slice_set (slice_set (slice_set {argument(before)} 0 {digits[0]}) 1 {digits[1]}) 2 {digits[2]}",
                 Value(name, "word", node, register_of(node, "c"), before, lo=0, hi=2, digits=digits))
        return node

    def rotate(self, begin: str) -> Node:
        """Returns the node after RCR."""
        digits, before, name = int(self.operand), self.state.of("c"), self.fresh("c")
        node = self.step(f"rotated {begin} {digits} (omega arith) {self.at_next}", self.state.after(self.next_pc, c=name))
        self.put(node, "c", name, f"rotated_register {argument(before)} {digits}",
                 Value(name, "rotated", node, register_of(node, "c"), before, before, digits=(digits,)))
        return node

    def status(self, begin: str) -> Node:
        """Returns the node after an instruction of a status bit."""
        bit, before = int(self.operand), self.state.of("status")
        processor = with_status(before)
        if self.name == "?FSET":
            state = self.state.after(self.next_pc)
            state.terms["carry"] = f"(is_status_set {bit} {processor})"
            return self.step(f"status_tested {begin} {bit} (omega arith) {self.at_next}", state)
        on = "true" if self.name == "SETF" else "false"
        name = self.fresh("status")
        node = self.step(f"status_{'set' if on == 'true' else 'cleared'} {begin} {bit} (omega arith) {self.at_next}",
                         self.state.after(self.next_pc, status=name))
        self.node.abbreviations.append((name, "ℕ", f"(with_status {bit} {on} {processor}).status"))
        self.run.knowledge.owners[name] = node
        self.status_facts(node, name, before, bit, on)
        return node

    def status_facts(self, node: Node, name: str, before: str, bit: int, on: str) -> None:
        """Adds what is known of the status bits after one was set or cleared."""
        old = with_status(before)
        for other in range(14):
            key = status_bit(other, name)
            right: Form
            if other == bit:
                right, proof = {None: int(on == "true")}, f"read_status {old} {bit} {on}"
            else:
                right = {status_bit(other, before): 1}
                proof = f"other_status {old} {bit} {other} {on} (λ same. omega (arith, same))"
            self.run.knowledge.others[key] = [self.run.knowledge.fact(node, {key: 1}, "=", right, f"ap carry_digit ({proof})")]

    # Jumps.

    def ways(self, condition: str) -> list[tuple[bool, str, list[Fact]]]:
        """Returns the ways at a jump: whether it is taken, the proof of that, and the facts that are known on this way."""
        carry = self.state.of("carry")
        on_carry = condition == "Carry"
        if carry in ("true", "false"):
            return [((carry == "true") == on_carry, "refl", [])]
        found = []
        for value in (True, False):
            proof = f"is_{self.node.number}_{int(value)}"
            found.append((value == on_carry, proof if on_carry else f"ap not {proof}", self.facts_on_way(carry, value)))
        return found

    def facts_on_way(self, carry: str, value: bool) -> list[Fact]:
        """Returns the facts that a carry or a test says on one way; none if it says nothing about numbers."""
        proved, know = f"is_{self.node.number}_{int(value)}", self.run.knowledge
        if not self.node.test:
            found = [know.fact(self.node, {f"carry_digit {argument(carry)}": 1}, "=", {None: int(value)}, f"ap carry_digit {proved}")]
        else:
            bases = (16, 10) if know.is_decimal and "<" not in self.node.test[0] else (16,)
            found = [fact for fact in (self.tested(base, value, proved) for base in bases) if fact]
        for fact in found:
            # It is written on its way, and not in the module of the node.
            self.node.facts.remove(fact)
            fact.is_needed = True
        return found

    def tested(self, base: int, value: bool, proved: str) -> Fact | None:
        """Returns the fact that a test says of the numbers in a base on one way."""
        assert self.node.test
        kind, x, y, lo, hi = self.node.test
        one: Form = {Span(x, lo, hi, base): 1} if x != "zeros" else {}
        other: Form = {Span(y, lo, hi, base): 1} if y != "zeros" else {}
        nothing: Form = {}
        if kind.endswith("#0"):
            proof = f"{'some' if value else 'zero'}_number at_a_place {base} {lo} {hi} {argument(x)} (omega arith) {proved}"
            return self.run.knowledge.fact(self.node, *((nothing, "<", one) if value else (one, "=", nothing)), proof)
        if "<" in kind:
            proof = f"{'less' if value else 'not_less'}_number {argument(x)} {argument(y)} {lo} {hi} {proved}"
            return self.run.knowledge.fact(self.node, *((one, "<", other) if value else (other, "<=", one)), proof)
        registers = f"{argument(x)} {argument(y)}"
        if not value:
            return self.run.knowledge.fact(self.node, one, "=", other, f"same_numbers at_a_place {base} {registers} {lo} {hi} {proved}")
        numbers = self.run.knowledge.numbers_in(base, (x, y), lo, hi)
        if not numbers:
            return None
        return self.run.knowledge.fact(self.node, one, "<>", other, f"different_numbers at_a_place {base} {lo} {hi} {registers} "
                                       f"(omega arith) (omega arith) {' '.join(numbers)} {proved}")

    def split(self, condition: str, taken: Callable[[str], tuple[str, State | None]],
              passed: Callable[[str], tuple[str, State | None]]) -> list[Node]:
        """Returns the nodes after a jump. `taken` and `passed` get the proof that the jump is or is not taken, and return the lemma and
        the state, which is None after the return of the function."""
        ways = []
        for is_taken, proof, facts in self.ways(condition):
            lemma, state = (taken if is_taken else passed)(proof)
            way = Way(facts, lemma, is_taken)
            known = [*self.node.passed, *facts]
            if state is not None:
                way.node = self.go_on(state)
                way.node.passed = known
            else:
                way.end = Node(-1, self.instruction.line, self.popped(), passed=known)
                self.run.ends.append(way.end)
            ways.append(way)
        if len(ways) > 1:
            self.node.form = "split", self.state.of("carry"), ways
        elif ways[0].node:
            self.node.form = "step", ways[0].lemma
        else:
            self.node.form, self.node.end = ("end", ways[0].lemma), ways[0].end
        return [way.node for way in ways if way.node]

    def popped(self) -> State:
        """Returns the state after a return to the newest return address."""
        newest, *rest = self.state.returns
        pc = int(newest, 16) if newest.startswith("0x") else 0
        return self.state.after(pc).with_returns([*rest, "0"])

    def returning(self) -> tuple[str, State | None]:
        """Returns the proof that the newest return address is open, and the state there; None after the return of the function."""
        newest = self.state.returns[0]
        if newest == "r0":
            return "may_return", None
        if not newest.startswith("0x"):
            raise self.unsupported()
        return "refl", self.popped()

    def returned(self, lemma: str) -> list[Node]:
        """Returns the nodes after RTN: none after the return of the function."""
        is_open, state = self.returning()
        if state is not None:
            return [self.step(f"{lemma} {is_open}", state)]
        self.node.form = "end", f"{lemma} {is_open}"
        self.node.end = Node(-1, self.instruction.line, self.popped(), passed=self.node.passed)
        self.run.ends.append(self.node.end)
        return []

    def return_if(self) -> list[Node]:
        """Returns the nodes after ?C RTN or ?NC RTN."""
        condition = "Carry" if self.instruction.text == "?C RTN" else "NoCarry"
        args = f"straight {self.state_text()} {self.node.whole} {condition} {self.at_next}"

        def taken(proof: str) -> tuple[str, State | None]:
            """Returns the lemma and the state after the return, by the proof of its condition."""
            is_open, state = self.returning()
            return f"return_taken {args} ({proof}) {is_open}", state

        return self.split(condition, taken, lambda proof: (f"return_passed {args} ({proof}) refl", self.state.after(self.next_pc)))

    def short_jump(self) -> list[Node]:
        """Returns the nodes after JNC or JC."""
        condition = "Carry" if self.name == "JC" else "NoCarry"
        distance = int(self.operand, 16)
        shown = f"(pos {distance})" if distance >= 0 else f"(negsuc {-distance - 1})"
        args = f"straight {self.state_text()} {self.node.whole} {condition} {shown} (le_z_yes tt, le_z_yes tt) {self.at_next}"
        target = (self.state.pc + distance) % ADDRESSES
        return self.split(condition, lambda proof: (f"short_jump_taken {args} ({proof}) refl", self.state.after(target)),
                          lambda proof: (f"short_jump_passed {args} ({proof}) refl", self.state.after(self.next_pc)))

    def long_jump(self) -> list[Node]:
        """Returns the nodes after ?NC XQ, ?C XQ, ?NC GO or ?C GO."""
        condition = "Carry" if self.name.startswith("?C") else "NoCarry"
        target, is_call = int(self.operand, 16), self.name.endswith("XQ")
        args = (f"straight {self.state_text()} {self.node.whole} {target & 0xFF} {self.instruction.words[1]} (omega arith) {self.at_next} "
                f"{self.at_second}")
        pushed = [f"{self.next_pc:#06x}", *self.state.returns[:3]] if is_call else self.state.returns
        after = self.state.after(target).with_returns(pushed)
        is_taken = self.state.of("carry") == ("true" if condition == "Carry" else "false")
        callee = self.run.called(self.run.banks.place(after), self.instruction.line) if is_call and is_taken else None
        if callee:
            return [self.call(callee, f"long_jump_taken {args} refl refl", after)]
        return self.split(condition, lambda proof: (f"long_jump_taken {args} ({proof}) refl", after),
                          lambda proof: (f"long_jump_passed {args} ({proof}) refl", self.state.after(self.next_pc)))

    def call(self, callee: Result, lemma: str, inner: State) -> Node:
        """Returns the node after the call of a function that has a theorem of its own."""
        self.check_start(callee)
        run, know = self.run, self.run.knowledge
        count = len(run.nodes)
        t, done = f"t_{count}", f"done_{count}"
        terms = {**inner.terms, "carry": "false"}
        for name, known in callee.changed.items():
            terms[name] = known if known is not None else start_of(name, t)
        names = {"r0": inner.returns[0], "r1": inner.returns[1], "r2": inner.returns[2], "r3": inner.returns[3]}
        returns = tuple(f"{done}.{one}" if one.startswith("return_") else names.get(one, one) for one in callee.returns)
        state, pages = back_from(self, callee, State(self.next_pc, returns, terms))
        node = self.go_on(state)
        node.variables = [(t, "Nut"), (done, f"{callee.label}_Done {inner.text()} {' '.join(inner.returns)} {t}")]
        run.unknown(node, t, done, [name for name in (*WIDE, "ram") if callee.changed.get(name, "") is None])
        run.assume(node, callee.contract.ensures, inner, f"{done}.claim", Known(t, left_by(done, node, pages), inner.text()))
        if callee.uses_memory:
            know.use(callee.knowledge.highest)
        steps = form_of(callee.bound, inner, inner)
        self.node.spent = {**steps, None: steps.get(None, 0) + 1}
        self.node.cost = self.node.spent.get(None, 0)
        claimed = run.contract.steps
        if keys_in(steps) and (run.now or not (claimed and claimed.count.parts)):
            if claimed and claimed.is_exact:
                text = f", `{callee.contract.steps.text}`," if callee.contract.steps else ""
                raise self.unsupported(f"the number of steps of {callee.label}{text} depends on its state, expected a constant: claim "
                                       "`within`")
            self.node.cost = 1 + most(know, steps, self.node.passed)
            self.node.spent = {None: self.node.cost}
        self.node.form = "call", callee, lemma, inner, done, t, steps, pages
        if callee.label not in run.calls:
            run.calls.append(callee.label)
        return node

    def check_start(self, callee: Result) -> None:
        """Checks that what the callee's theorem knows of its start is known here."""
        for name, value in known_at_start(callee.contract).items():
            found = "false" if name == "carry" else self.state.of(name)
            if found != value:
                why = f"but here `{claim_text(name, found)}`" if literal(found) else "which is not known here: set it before, or require it"
                raise self.unsupported(f"{callee.label} requires `{claim_text(name, value)}`, {why}")
