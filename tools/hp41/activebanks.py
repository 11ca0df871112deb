"""The active banks in the states of a function of a project: their terms for the prover, and the proofs that words are read there."""
from __future__ import annotations

from .claims import AnyClaim, Named
from .codes import ADDRESSES, Bank, Code, Instruction, NotProved
from .symbols import State

NUMBERS = ("First", "Second", "Third", "Fourth")
START, PAGES, FIRST_PAGE = "s.pages", "pages", 4

# An active bank: a page and the number of the bank.
Active = tuple[int, int]


def pages_text(of: str, active: Active | None) -> str:
    """Returns pages with another active bank of one page as a term."""
    return f"with_chosen {of} {active[0]} {NUMBERS[active[1] - 1]}" if active else of


def place_text(place: int) -> str:
    """Returns a place as text."""
    return f"{place % ADDRESSES:04X} in bank {place // ADDRESSES + 1}"


class ActiveBanks:
    """The active banks in the states of one function. `start` has those in which the function begins, of each page whose words it reads:
    that of the label in its own page, and bank 1 in others. In one page at a time, another bank may be active later."""

    def __init__(self, code: Code, label: str) -> None:
        """Finds the active banks at the start of the function at a label."""
        self.code = code
        self.page, self.number = code.labels[label] % ADDRESSES >> 12, code.labels[label] // ADDRESSES + 1
        self.start = {self.page: self.number}
        # The terms of pages that occur, each with the bank that is another one than at the start, and their numbers in names.
        self.terms: dict[str, Active | None] = {START: None}
        # The active bank at the end, if it is another one.
        self.end: Active | None = None

    def other(self, state: State) -> Active | None:
        """Returns the bank that is another one in a state than at the start, if there is one."""
        return self.terms[state.of(PAGES)]

    def number_in(self, state: State, page: int) -> int:
        """Returns the number of the active bank of a page in a state."""
        other = self.other(state)
        if other and other[0] == page:
            return other[1]
        if any(bank.page == page for bank in self.code.banks):
            return self.start.setdefault(page, 1)
        return 1

    def place(self, state: State) -> int:
        """Returns the place of the next word."""
        return state.pc + (self.number_in(state, state.pc >> 12) - 1) * ADDRESSES

    def with_active(self, state: State, active: Active | None) -> State:
        """Returns a state in which another bank is active than at the start, or none."""
        term = pages_text(START, active)
        self.terms.setdefault(term, active)
        terms = {name: one for name, one in state.terms.items() if name != PAGES}
        return State(state.pc, state.returns, terms if active is None else {**terms, PAGES: term})

    # Terms of proofs.

    def key(self, state: State) -> str:
        """Returns the number of the pages of a state in names."""
        return str(list(self.terms).index(state.of(PAGES)))

    def has(self, state: State) -> str:
        """Returns the proof that the words of the next instruction are in the pages."""
        if not self.code.is_project:
            return "has"
        page = state.pc >> 12
        bank = self.code.bank(page, self.number_in(state, page))
        return f"at_{self.key(state)}_{bank.name if bank else ''}"

    def module(self, state: State) -> str:
        """Returns the proof that the words of the project are in the pages of a state."""
        return "has" if self.key(state) == "0" else f"module_{self.key(state)}"

    def active(self, state: State, page: int) -> str:
        """Returns the proof that a bank of a page is active in a state."""
        return f"active_{self.key(state)}_{page}"

    def plugged(self, page: int, number: int) -> str:
        """Returns the proof that a bank is plugged at the start."""
        bank = self.code.bank(page, number)
        assert bank
        return f"(plugged_some {START} {page} {NUMBERS[number - 1]} words_{bank.name} has.at_{bank.name})"

    def needs(self, state: State, callee: ActiveBanks) -> str:
        """Returns the proofs of the requirements of a function that is called, on pages."""
        return " ".join([self.module(state), *(self.active(state, page) for page in sorted(callee.start))])

    def definitions(self) -> list[tuple[str, str, str]]:
        """Returns the names, types and proofs of what a proof needs: for the pages in each state that the words of the project are there,
        which banks are active, and which words are read."""
        found = []
        for key, (term, other) in enumerate(self.terms.items()):
            of = f"({term})" if other else term
            if other:
                found.append((f"module_{key}", f"HasModule {of}", f"module_kept {START} {other[0]} {NUMBERS[other[1] - 1]} has"))
            for page, number in sorted(self.start.items()):
                now = other[1] if other and other[0] == page else number
                if other:
                    found.append((f"active_{key}_{page}", f"chosen_at {of} {page} ≡ {NUMBERS[now - 1]}", self.active_proof(page, other)))
                bank = self.code.bank(page, now)
                if bank:
                    module = f"module_{key}" if other else "has"
                    found.append((f"at_{key}_{bank.name}", f"HasWords {of} {page << 12:#06x} words_{bank.name}",
                                  f"plugged_words {of} {page} {NUMBERS[now - 1]} words_{bank.name} {module}.at_{bank.name} (omega arith) "
                                  f"(omega arith) (omega arith) active_{key}_{page}"))
        return found

    def active_proof(self, page: int, other: Active) -> str:
        """Returns the proof that a bank of a page is active while another bank of a page is active than at the start."""
        name = NUMBERS[other[1] - 1]
        if page != other[0]:
            return f"chosen_elsewhere {START} {other[0]} {page} {name} (λ same. omega (arith, same)) ∙ active_0_{page}"
        bank = self.code.bank(page, other[1])
        assert bank
        return f"chosen_there {START} {page} {name} words_{bank.name} has.at_{bank.name} whole_0.pages (omega arith)"

    # Other banks.

    def after(self, state: State, active: Active, line: int, why: str) -> tuple[Active | None, str]:
        """Returns the bank that is another one than at the start after a bank is activated, and the proof that the pages are those with
        this bank active. `why` begins the error if this is not supported."""
        page, number = active
        other = self.other(state)
        if not self.code.bank(page, number):
            raise NotProved(line, f"{why}: bank {number} of page {page:X} has no words, expected a bank of the project")
        if other and other[0] != page:
            raise NotProved(line, f"{why}: bank {other[1]} of page {other[0]:X} is active too, expected another active bank in one page at "
                                  "a time: give the function that is called claims")
        name, start = NUMBERS[number - 1], self.start[page]
        again = f"bank_again {START} {page} {NUMBERS[other[1] - 1]} {name} {self.plugged(page, number)}" if other else ""
        if number == start:
            back = f"bank_active {START} {page} {name} {self.plugged(page, number)} active_0_{page}"
            return None, f"{again} ∙ {back}" if again else back
        return active, again

    def check_end(self, line: int, state: State, claims: list[AnyClaim]) -> None:
        """Checks that the function returns with the bank active in which it began, or which it claims."""
        if not self.code.is_project:
            return
        claimed = next((claim for claim in claims if isinstance(claim, Named) and claim.name == "BANK"), None)
        number = self.number_in(state, self.page)
        if claimed and int(claimed.value) != number:
            raise NotProved(claimed.line, f"`{claimed.text}`: the function returns with bank {number} of page {self.page:X} active")
        if not claimed and number != self.number:
            raise NotProved(line, f"the function returns with bank {number} of page {self.page:X} active, expected bank {self.number}: put "
                                  f"ENBANK{self.number} before, or claim `BANK = {number}`")
        other = self.other(state)
        if other and other[0] != self.page:
            raise NotProved(line, f"the function returns with bank {other[1]} of page {other[0]:X} active, expected bank "
                                  f"{self.start[other[0]]}")
        self.end = other


def words_text(bank: Bank) -> str:
    """Returns the words of a bank as a list of the prover."""
    return " ∷ ".join([*(f"0x{word:03X}" for word in bank.words[:bank.size]), "[]"])


def in_pages(instruction: Instruction, has: str, more: int = 0) -> str:
    """Returns the proof that a word of an instruction is in the pages."""
    return f"({has} {instruction.place + more} (omega arith))"
