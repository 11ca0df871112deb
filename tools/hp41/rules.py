"""The rules of tools/lint: what looks wrong in sources that have no errors. Each rule has a name, which is in the table of
docs/ASSEMBLER.md; a comment such as `; lint: ignore setdec` in a line switches it off there.

A rule that would have to guess reports only what is certain."""
import re
from typing import Iterator, NamedTuple, Optional

from .decks import shown
from .flow import DECIMAL, Flow, Node
from .sources import ASKS, ASKS_FOR_SET, BLANKS, ENDS, FIRST_POLLED, GOES, ID_PLACE, SUM, TEST, Assembled

ASKS_FOR_CLEAR = re.compile(r"JNC \S+|\?NC (?:XQ|GO) \S+(?: \S+)?|\?NC RTN")
SHORT_OR_RETURN = re.compile(r"JNC \S+|\?NC RTN")
GOES_ON = re.compile(r"(?:JNC|\?NC GO) \S+")
DATA = re.compile(r"(?:CON|NAME|ENTRY|FOCAL) .*")
ALWAYS_SETS = re.compile(r"C=-C-1 .*")
STATUS_BIT = re.compile(r"(?:SETF|CLRF) (10|12)")
ENBANK = re.compile("ENBANK([1-4])")
SUM_OF_C = re.compile(r"[AC]=(?:C[+-]1|[AC][+-]C|C\+C|0-C) (?:S&X|ALL)")

DIRECTIVE = re.compile(rb"(#[ \t]*(?:define|include|if|ifdef|ifndef|else|elif|endif|undef|macro|pragma|org|equ|set)\b)(?![^\w\s]*[.,:])",
                       re.I)
IGNORED = re.compile(r"\blint:\s*ignore\b[ \t]*([^;]*)")

# What the status bits mean that a function leaves unchanged.
MEANING = {"10": "the program is in a module", "12": "the program is private"}

# The processor has four return addresses, and the first one is that of the function itself.
RETURN_ADDRESSES = 4

NAMES = ("lost-answer", "never-taken", "always-taken", "setdec", "decimal-digit", "status-bit", "unreachable", "deep-calls",
         "endless-calls", "ldi-word", "middle", "bank-table", "bank-switch", "bank-return", "module-number", "function-count",
         "function-name", "open-end", "unused-label", "polled-word", "pointer", "directive", "ignore")


class Bank:
    """The lines of a source for the rules."""

    def __init__(self, source: Assembled) -> None:
        """Finds the lines that have words."""
        self.source = source
        # The lines with words; of lines that only fill the page the first one. And the instruction of each of these lines.
        self.fills = {at for at in source.whole.fills if at - 1 not in source.whole.fills}
        self.lines = [at for at in range(len(source.lines)) if source.words_of_line(at) and at not in source.whole.fills - self.fills]
        self.code = {at: source.lines[at].instruction() for at in self.lines}
        self.has_table = any(code.startswith(("ENTRY ", "FOCAL ")) for code in self.code.values())

    def sets(self, at: int) -> bool:
        """Returns whether the instruction of a line sets the carry by its result."""
        return bool(TEST.fullmatch(self.code[at]) or SUM.fullmatch(self.code[at]))

    def pairs(self) -> Iterator[tuple[int, int]]:
        """Returns pairs of lines: each line with words, and the next one."""
        return zip(self.lines, self.lines[1:])

    def continues(self, before: Optional[int], at: int) -> bool:
        """Returns whether execution can continue after a line. `before` is the line before it, or None."""
        code = self.code[at]
        into = ENBANK.fullmatch(code)
        if DATA.fullmatch(code) or ENDS.fullmatch(code) or into and int(into[1]) != self.source.number:
            return False
        return not GOES.fullmatch(code) or before is not None and self.sets(before)

    def is_entrance(self, at: int) -> bool:
        """Returns whether a label is where others begin: no instruction before its line continues there."""
        before, last = [None, None, *(line for line in self.lines if line < at)][-2:]
        return last is None or not self.continues(before, last)


class Finding(NamedTuple):
    """A finding: the number of its source, its line, the name of the rule, and the text."""
    bank: int
    line: int
    rule: str
    text: str


class Lint:
    """The findings in a source, or in several sources that belong together."""

    def __init__(self, *sources: Assembled) -> None:
        """Applies all rules."""
        self.sources, self.at = sources, 0
        self.found: list[Finding] = []
        self.banks = [Bank(source) for source in sources]
        self.is_module = any(bank.has_table for bank in self.banks)
        for self.at, bank in enumerate(self.banks):
            self.carries(bank)
            self.table(bank)
            self.names(bank)
            self.ends(bank)
            self.polled(bank)
            self.status_bits(bank)
            self.unused(bank)
            self.directives(bank)
        self.follow()
        self.judge_banks()
        self.found = sorted(one for one in set(self.found) if not self.is_ignored(*one))
        self.ignores()
        self.found.sort()

    def tell(self, at: int, name: str, what: str, bank: Optional[int] = None) -> None:
        """Adds a finding about a line: the number of the source, the line, the name of the rule, and the text."""
        self.found.append(Finding(self.at if bank is None else bank, at, name, what))

    def names_off(self, bank: int, at: int) -> list[str]:
        """Returns the names of rules that the comment of a line switches off."""
        source = self.sources[bank]
        # A directive of another assembler is a comment as a whole.
        comment = source.texts[at].decode(errors="replace") if DIRECTIVE.match(source.texts[at]) else source.lines[at].comment
        found = IGNORED.search(comment)
        return re.findall(r"[^\s,]+", found[1]) if found else []

    def is_ignored(self, bank: int, at: int, name: str, _what: str) -> bool:
        """Returns whether a comment in the line of a finding switches the rule off."""
        return name in self.names_off(bank, at)

    def ignores(self) -> None:
        """Finds comments that switch off a rule that does not exist."""
        for number, source in enumerate(self.sources):
            for at in range(len(source.lines)):
                for name in self.names_off(number, at):
                    if name not in NAMES:
                        self.tell(at, "ignore", f"no rule is named {name}: expected one of {', '.join(NAMES)}", number)

    # The carry.

    def carries(self, bank: Bank) -> None:
        """Finds lost answers, and conditions that are never or always true."""
        for at, behind in bank.pairs():
            code, next_code = bank.code[at], bank.code[behind]
            if TEST.fullmatch(code) and not ASKS.fullmatch(next_code) and not DATA.fullmatch(next_code):
                self.tell(at, "lost-answer", f"the answer of this test is lost: {next_code} clears the carry")
            if ASKS_FOR_SET.fullmatch(next_code) and not bank.sets(at) and not DATA.fullmatch(code):
                self.tell(behind, "never-taken", f"never taken: {code} before it clears the carry")
            if ASKS_FOR_CLEAR.fullmatch(next_code) and ALWAYS_SETS.fullmatch(code):
                self.tell(behind, "never-taken", f"never taken: {code} before it always sets the carry")
            if next_code == "?NC RTN" and not bank.sets(at) and not DATA.fullmatch(code):
                self.tell(behind, "always-taken", f"always taken: {code} before it clears the carry: write RTN")
        for first, at, behind in zip(bank.lines, bank.lines[1:], bank.lines[2:]):
            clears = not bank.sets(at) and not ASKS.fullmatch(bank.code[at]) and not DATA.fullmatch(bank.code[at])
            code = bank.code[behind]
            if SUM.fullmatch(bank.code[first]) and clears and SHORT_OR_RETURN.fullmatch(code) and code != "?NC RTN":
                self.tell(behind, "always-taken", f"always taken: {bank.code[at]} before it clears the carry of {bank.code[first]}")

    # The table of a module.

    def table(self, bank: Bank) -> None:
        """Checks the number of a module and the count of its functions."""
        source, lines = bank.source, bank.lines
        entries = [at for at in lines if re.match("(?:ENTRY|FOCAL) ", bank.code[at])]
        if not entries or len(source.words) < 2:
            return
        number, count = source.words[:2]
        if not 1 <= number <= 31:
            self.tell(lines[0], "module-number", f"module number {number}: expected 1 to 31, written 001 to 01F")
        elif self.is_decimal(source, lines[0], number):
            self.tell(lines[0], "module-number", f"module number {number}, because {number:03X} is hexadecimal: for module "
                                                 f"{int(f'{number:X}')} write {int(f'{number:X}'):03X}")
        if source.places[lines[1]] != 1 or bank.code[lines[1]][:4] != "CON ":
            self.tell(lines[0], "function-count", "no count of functions follows the module number")
        elif count != len(entries):
            self.tell(lines[1], "function-count", f"the count of functions is {count}, but there are {len(entries)} ENTRY and FOCAL "
                                                  f"lines: write {len(entries):03X}")

    @staticmethod
    def is_decimal(source: Assembled, at: int, number: int) -> bool:
        """Returns whether a number may have been written as a decimal number."""
        digits = f"{number:X}"
        return number > 9 and digits.isdigit() and not re.search(rf"(?<!\d){number}(?!\d)", source.lines[at].comment)

    def names(self, bank: Bank) -> None:
        """Finds names without functions, and functions without names."""
        source = bank.source
        entered = {place: at for at in bank.lines for place in self.entry_of(bank, at, "ENTRY ")}
        ends = {source.places[at] + len(source.words_of_line(at)): at for at in bank.lines if bank.code[at].startswith("NAME ")}
        focal = {place for at in bank.lines for place in self.entry_of(bank, at, "FOCAL ")}
        behind = {source.places[after]: at for at, after in bank.pairs()}
        named: dict[str, int] = {}
        for place, at in ends.items():
            first = named.setdefault(bank.code[at], at)
            if first != at and place in entered:
                self.tell(at, "function-name", f"line {first + 1} has this name already: the calculator finds only the first function of a "
                                               "name")
            if place not in entered and place not in focal:
                self.tell(at, "function-name", "no ENTRY names the label after this name")
        for place, at in entered.items():
            before = behind.get(place)
            is_foreign = at in getattr(source, "entered", ())
            is_data = before is not None and bank.code[before].startswith("CON ") and bank.code[before] != "CON 000"
            if place not in ends and not is_foreign and not is_data:
                self.tell(at, "function-name", f"no NAME is directly before the label {source.lines[at].reference}")

    @staticmethod
    def entry_of(bank: Bank, at: int, directive: str) -> list[int]:
        """Returns the place of the label of a table entry; none if the line is no such entry, or if its label has no place in the page."""
        label = bank.source.lines[at].reference
        return [bank.source.labels[label]] if bank.code[at].startswith(directive) and label in bank.source.labels else []

    # Ends, words that are read by themselves, status bits and labels.

    def ends(self, bank: Bank) -> None:
        """Finds instructions after which execution continues past the source or into a name."""
        for before, at, behind in zip([None, *bank.lines], bank.lines, [*bank.lines[1:], None]):
            if behind is not None and behind not in bank.fills and not bank.code[behind].startswith("NAME "):
                continue
            if bank.continues(before, at):
                self.tell(at, "open-end", "execution continues past the end of the source" if behind is None else
                          "execution continues into the words that fill the page" if behind in bank.fills else
                          f"execution continues into {bank.code[behind]}")

    def polled(self, bank: Bank) -> None:
        """Finds instructions of two words where each word is read by itself."""
        for at in bank.lines:
            place, words = bank.source.places[at], bank.source.words_of_line(at)
            if FIRST_POLLED <= place < ID_PLACE and words[1:]:
                self.tell(at, "polled-word", f"the calculator reads the word at {bank.source.address(place + 1)} by itself: use "
                                             "instructions of one word here")

    def status_bits(self, bank: Bank) -> None:
        """Finds changes of status bits that a function leaves unchanged."""
        for at in bank.lines if self.is_module else []:
            found = STATUS_BIT.fullmatch(bank.code[at])
            if found:
                self.tell(at, "status-bit", f"the calculator needs S{found[1]}, which says that {MEANING[found[1]]}: use S0 to S9")

    def unused(self, bank: Bank) -> None:
        """Finds labels that no line refers to. Without a table, a label where execution begins may be for others."""
        for at, line in enumerate(bank.source.lines):
            name = line.label
            if name and bank.source.line_of(name) == at and not bank.source.uses_of(name):
                if self.is_module or not bank.is_entrance(at):
                    self.tell(at, "unused-label", f"no line refers to the label {name}")

    def directives(self, bank: Bank) -> None:
        """Finds directives of other assemblers that begin with #, which are read as comments."""
        for at, text in enumerate(bank.source.texts):
            found = DIRECTIVE.match(text)
            if found:
                self.tell(at, "directive", f"a line that begins with # is a comment, so {found[1].decode()} has no effect: a project of "
                                           "tools/module names numbers in [equates], and several sources need no #include")

    # What is executed.

    def roots(self) -> tuple[list[Node], list[Node]]:
        """Returns where execution begins: the functions of tables, words that the calculator reads by itself, labels that no line refers
        to, and the first word of a source without a table. And those of them that are functions, or whose caller is not known."""
        functions: list[Node] = []
        others: list[Node] = []
        for number, bank in enumerate(self.banks):
            source = bank.source
            entries = [source.words_of_line(at) for at in bank.lines if bank.code[at].startswith("ENTRY ")]
            functions += [(number, (high & 0xF) << 8 | low & 0xFF) for high, low in entries]
            others += [(number, place) for place in range(FIRST_POLLED, min(ID_PLACE, len(source.words))) if source.words[place]]
            others += [(number, place) for at in bank.lines for place in self.entry_of(bank, at, "FOCAL ")]
            unused = [(number, place) for name, place in source.labels.items() if not source.uses_of(name)]
            begins = [] if bank.has_table else [(number, 0)]
            others += [*unused, *begins]
            functions += [] if self.is_module else [*unused, *begins]
        return functions, others

    def follow(self) -> None:
        """Finds what depends on the flow of control."""
        self.flow = Flow(self.sources)
        functions, others = self.roots()
        functions = [node for node in dict.fromkeys(functions) if self.flow.is_code(node)]
        places, begins = self.flow.reached([*functions, *others])
        self.middles(begins)
        if not self.flow.is_uncertain:
            self.unreachable(places)
        called = {target for routine in self.flow.all_routines(functions).values() for _, target in routine.calls}
        for node in functions:
            if self.is_module or node not in called:
                self.decimal_returns(node)
            self.depth(node)
        for node in functions if self.is_module else ():
            self.pointers(node)
        self.decimal_digits()
        for node, names in self.flow.endless(functions):
            self.tell(self.flow.line(node), "endless-calls", f"this chain of calls never ends: {' -> '.join(names)}", node[0])

    def unreachable(self, places: set[Node]) -> None:
        """Finds instructions that nothing reaches; of several after each other the first one. If the line before always jumps because the
        carry is clear, the condition may be meant otherwise."""
        for number, bank in enumerate(self.banks):
            was_reached, before = True, None
            for at in bank.lines:
                is_reached = at in bank.fills or (number, bank.source.places[at]) in places
                if is_reached or DATA.fullmatch(bank.code[at]) or bank.code[at] == "NOP":
                    was_reached, before = is_reached or DATA.fullmatch(bank.code[at]) is not None or was_reached, at
                    continue
                if was_reached and before is not None and GOES_ON.fullmatch(bank.code[before]):
                    if not any(one[:3] == (number, before, "always-taken") for one in self.found):
                        self.tell(before, "always-taken", f"always taken, because the carry is clear: nothing reaches {bank.code[at]} "
                                                          "after it", number)
                elif was_reached:
                    self.tell(at, "unreachable", "nothing reaches this instruction", number)
                was_reached, before = False, at

    def middles(self, begins: set[Node]) -> None:
        """Finds labels on the second word of an instruction, and jumps to it."""
        seconds: dict[Node, tuple[str, int]] = {}
        for number, bank in enumerate(self.banks):
            for at in bank.lines:
                words, place = bank.source.words_of_line(at), bank.source.places[at]
                if len(words) == 2 and not DATA.fullmatch(bank.code[at]):
                    seconds[number, place + 1] = "ldi-word" if bank.code[at].startswith("LDI") else "middle", at
        for number, place in begins:
            word = self.flow.word((number, place))
            if word.size == 2 and self.flow.is_code((number, place + 1)):
                seconds.setdefault((number, place + 1), ("middle" if word.what else "ldi-word", self.flow.line((number, place))))
        for number, bank in enumerate(self.banks):
            for name, place in bank.source.labels.items():
                if (number, place) in seconds and self.flow.is_own(bank.source, name):
                    rule, _ = seconds[number, place]
                    self.tell(bank.source.line_of(name), rule, f"the label {name} is on the second word of {self.what_is(rule)}", number)
            for at in bank.lines:
                if DATA.fullmatch(bank.code[at]) or at in bank.fills:
                    continue
                word = self.flow.word((number, bank.source.places[at]))
                for node in self.flow.nodes_at(number, word.target) if word.what in ("go", "call") and word.target is not None else []:
                    if node in seconds:
                        rule, line = seconds[node]
                        self.tell(at, rule, f"this jump leads to the second word of {self.what_is(rule)}, in line {line + 1}", number)

    @staticmethod
    def what_is(rule: str) -> str:
        """Returns what has the second word."""
        return "LDI, which is a number" if rule == "ldi-word" else "a long jump"

    def decimal_returns(self, node: Node) -> None:
        """Finds returns of a function in base 10."""
        for (bank, place), base, since in self.flow.bases(node):
            if base == DECIMAL and since is not None:
                source = self.sources[since[0]]
                where = source.whole.place(self.flow.line(since)).rsplit(":", 1)[1]
                self.tell(self.flow.line((bank, place)), "setdec", f"the base is still 10 at this return, by SETDEC in line {where}: write "
                                                                   "SETHEX before it", bank)

    def decimal_digits(self) -> None:
        """Finds sums of C in base 10 directly after LDI with a digit above 9."""
        for number, bank in enumerate(self.banks):
            for index, at in enumerate(bank.lines):
                behind = next((one for one in bank.lines[index + 1:] if bank.code[one] not in ("NOP", "SETDEC")), at)
                if not re.fullmatch("LDI .*", bank.code[at]) or not SUM_OF_C.fullmatch(bank.code[behind]):
                    continue
                word = bank.source.words_of_line(at)[1]
                bases = self.flow.modes.get((number, bank.source.places[behind]))
                if bases == {DECIMAL} and not f"{word:X}".isdigit():
                    self.tell(behind, "decimal-digit", f"the base is 10 here, and {word:03X} of LDI has a digit above 9", number)

    def pointers(self, node: Node) -> None:
        """Finds instructions of a function that use the pointer before it is set."""
        for bank, place in self.flow.without_pointer(node):
            self.tell(self.flow.line((bank, place)), "pointer",
                      "this instruction uses the pointer, but no R= before it sets it, and it may be at any place when "
                      f"{self.flow.name(node)} starts", bank)

    def depth(self, node: Node) -> None:
        """Finds chains of calls that need more return addresses than there are. The first address is that of the function."""
        chain = self.flow.deepest(node)
        if len(chain) >= RETURN_ADDRESSES and self.flow.routines[node].can_return and not self.flow.routines[node].is_tricky:
            names = [self.flow.name(one) for one in [node, *(target for _, target in chain[:RETURN_ADDRESSES])]]
            call = chain[RETURN_ADDRESSES - 1][0]
            self.tell(self.flow.line(call), "deep-calls", f"calls are nested {len(chain)} deep, {' -> '.join(names)}: there are four "
                                                          f"return addresses, and the first is that of {names[0]}", call[0])

    # Banks of a page.

    def judge_banks(self) -> None:
        """Compares the banks of each page."""
        for number, bank in enumerate(self.banks):
            others = {one.number: at for at, one in enumerate(self.sources) if one.page == bank.source.page}
            if bank.source.number == 1 and bank.has_table:
                for at in others.values():
                    self.compare(bank, at)
            for at in bank.lines:
                found = ENBANK.fullmatch(bank.code[at])
                if found and (len(others) > 1 or len(self.sources) > 1):
                    self.switch(number, at, int(found[1]), others)

    def compare(self, first: Bank, number: int) -> None:
        """Compares the table of a bank with that of bank 1."""
        bank = self.banks[number]
        length = 2 + 2 * sum(code.startswith(("ENTRY ", "FOCAL ")) for code in first.code.values()) + 2
        if not bank.has_table or bank is first:
            return
        for place, (word, other) in enumerate(zip(first.source.words[:length], bank.source.words)):
            if word != other:
                at = next(at for at in bank.lines if bank.source.places[at] <= place < bank.source.places[at + 1])
                self.tell(at, "bank-table", f"bank {bank.source.number} has {other:03X} at {bank.source.address(place)}, and bank 1 has "
                                            f"{word:03X}: all banks begin with the same table", number)
                return

    def switch(self, number: int, at: int, target: int, others: dict[int, int]) -> None:
        """Judges a word that activates a bank."""
        bank = self.banks[number]
        page, place = bank.source.page, bank.source.places[at] + 1
        if target not in others:
            self.tell(at, "bank-switch", f"page {page} has no bank {target} in these sources", number)
            return
        other = self.banks[others[target]]
        begins = {other.source.places[one] for one in other.lines if not re.match("NAME |ENTRY |FOCAL ", other.code[one])}
        if place not in begins or any(other.source.places[one] == place for one in other.fills):
            self.tell(at, "bank-switch", f"the next word is read at {bank.source.address(place)} of bank {target}, and no instruction "
                                         "begins there", number)
            return
        leaves = {found[1] for found in map(ENBANK.fullmatch, other.code.values()) if found} - {str(target)}
        if not leaves and target not in (1, bank.source.number):
            self.tell(at, "bank-return", f"bank {target} has no ENBANK of another bank, so it stays active after the function", number)


def lines_of(lint: Lint) -> list[str]:
    """Returns the findings as lines."""
    return [f"{lint.sources[bank].whole.place(at)}: {name}: {what}: {shown(lint.sources[bank].texts[at].strip(BLANKS))}"
            for bank, at, name, what in lint.found]
