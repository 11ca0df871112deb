"""Makes readable sources from the words of a page: with the table of a module, its names, labels and data."""
import re
from typing import Callable, Iterator, Optional

from .decks import Failure
from .sources import ASKS_FOR_SET, CHECKSUM_PLACE, ENDS, FIRST_POLLED, GOES, ID_PLACE, SUM, TEST, checksum_of

PAGE_SIZE = 4096

# The columns of instructions and of comments.
INDENT, COMMENT = 8, 24

# The greatest lengths of the name of a function and of a label.
LONGEST_NAME, LONGEST_LABEL = 11, 12

# This many words 000 in a row fill a page up to its end.
FILL = 32

# A jump or call, and its target.
SHORT = re.compile(r"(JN?C) ([+-])([0-9A-F]{2})")
LONG = re.compile(r"(\?N?C (?:XQ|GO)) ([0-9A-F])([0-9A-F]{3})")


# A line of a source: the place, the count of words, the text, and whether it is a word 000 without a label.
Row = tuple[int, int, str, bool]

# Takes pairs of an address and a count of words, and returns the lines that the bench lists for them.
ListWords = Callable[[list[tuple[str, int]]], list[str]]


class Page:
    """The words of a page, and the source lines made from them."""

    def __init__(self, page: str, words: list[int], list_words: ListWords, named: Optional[dict[int, Optional[str]]] = None) -> None:
        """`named` are further entries: for each place the name of its label, or None."""
        self.page, self.words, self.named = page, words, named or {}
        self.end = max((place + 1 for place, word in enumerate(words) if word), default=1)
        self.instructions = self.read(list_words)
        # The lines of data: for each place the count of words and the text.
        self.data: dict[int, tuple[int, str]] = {}
        self.labels = {place: name for place, name in self.named.items() if name}
        self.is_module = 1 <= words[0] <= 31 and 1 <= words[1] <= 64
        self.entries = self.table() if self.is_module else []
        self.enter()
        if self.is_module:
            self.entries += [place for place in range(FIRST_POLLED, min(ID_PLACE, self.end)) if words[place]]
            self.data.update((place, (1, f"CON {words[place]:03X}")) for place in range(ID_PLACE, self.end))
        self.reached = self.follow() if self.is_module or self.named else self.sweep()
        self.label_targets()

    def read(self, list_words: ListWords) -> dict[int, tuple[int, str]]:
        """Returns, for each place, the instruction that begins there, and its count of words."""
        wanted = [(place, min(2, PAGE_SIZE - place)) for place in range(self.end)]
        found = {}
        for line in list_words([(f"{self.page}{place:03X}", count) for place, count in wanted]):
            # Only the first line of each listing counts: the second one is the first line of the next listing, which overwrites it.
            found[int(line[1:4], 16)] = (len(line[6:13].split()), line[15:])
        return found

    def enter(self) -> None:
        """Adds the further entries, which must be at words of the page."""
        for place, name in self.named.items():
            if place >= self.end or self.is_data(place):
                why = (f"only words 000 are there, expected an address up to {self.page}{self.end - 1:03X}" if place >= self.end else
                       f"found {self.words[place]:03X} of the line `{self.data_at(place)}`, a word of the function table or of a name, "
                       "expected the address of an instruction")
                raise Failure(f"--entry {self.page}{place:03X}: {why}")
            if not name:
                self.labels.setdefault(place, self.unused(f"E{place:03X}"))
            self.entries.append(place)

    # The table.

    def table(self) -> list[int]:
        """Reads the table of a module: returns the places of its functions in microcode. The lines of the table become data."""
        number, count = self.words[:2]
        self.data[0], self.data[1] = (1, f"CON {number:03X}"), (1, f"CON {count:03X}")
        behind, entries = 2 + 2 * count, []
        first = next(at for at in range(behind, behind + 3) if at == behind + 2 or self.words[at])
        for at in range(2, behind, 2):
            high, low = self.words[at:at + 2]
            place = (high & 0xF) << 8 | low
            directive = {0x000: "ENTRY", 0x200: "FOCAL"}.get(high & ~0xF)
            if directive and low <= 0xFF and behind <= place < self.end:
                self.name_function(place, at // 2 - 1, first)
                self.data[at] = (2, f"{directive} :{self.labels[place]}")
                entries += [place] if directive == "ENTRY" else []
            else:
                self.data[at], self.data[at + 1] = (1, f"CON {high:03X}"), (1, f"CON {low:03X}")
        self.data.update((at, (1, "CON 000")) for at in range(behind, first))
        for at, (words, _) in list(self.data.items()):
            if any(at < place < at + words for place in self.labels):
                self.data.update((place, (1, f"CON {self.words[place]:03X}")) for place in range(at, at + words))
        return entries

    def name_function(self, place: int, number: int, first: int) -> None:
        """Gives a label to a function, that of its name if possible, and finds the words of the name."""
        name = self.name_before(place, first)
        if name:
            self.data[place - len(name)] = (len(name), f'NAME "{name}"')
        if place not in self.labels:
            self.labels[place] = self.unused(name if name and re.fullmatch(r"[A-Z][0-9A-Z]*", name) else f"F{number:02}")

    def name_before(self, place: int, first: int) -> Optional[str]:
        """Returns the name whose words end at a place and begin at `first` or later; None if these words are not a name."""
        name = ""
        for at in range(place - 1, max(first, place - LONGEST_NAME) - 1, -1):
            word = self.words[at]
            name += chr(word & 0x3F | (0 if word & 0x20 else 0x40))
            if word & ~0xBF or name[-1] == '"':
                return None
            if word & 0x80:
                return name
        return None

    def unused(self, name: str) -> str:
        """Returns a label that is not used yet."""
        return next(one for one in (name, f"{name[:LONGEST_LABEL - 1]}_", *(f"X{at}_" for at in range(PAGE_SIZE)))
                    if one not in self.labels.values())

    # The words that are executed.

    def is_data(self, place: int) -> bool:
        """Returns whether a place is inside data."""
        return self.data_at(place) is not None

    def data_at(self, place: int) -> Optional[str]:
        """Returns the line of data that a place is inside; None if it is not inside data."""
        lines = self.data.items()
        return next((text for at, (count, text) in lines if place - LONGEST_NAME <= at <= place and place < at + count), None)

    def target(self, place: int) -> Optional[int]:
        """Returns the target of the jump or call at a place; None if there is none, or if it is outside the page."""
        text = self.instructions[place][1]
        short, long = SHORT.fullmatch(text), LONG.fullmatch(text)
        if short:
            distance = int(short[3], 16)
            return place + (distance if short[2] == "+" else -distance)
        return int(long[3], 16) if long and long[2] == self.page else None

    def follow(self) -> set[int]:
        """Returns the places of the instructions that the functions of the table reach."""
        reached, left = set(), [(place, False) for place in self.entries]
        while left:
            place, may_be_set = left.pop()
            if (place, may_be_set) in reached or not 0 <= place < self.end or self.is_data(place):
                continue
            reached.add((place, may_be_set))
            count, text = self.instructions[place]
            if may_be_set or not ASKS_FOR_SET.fullmatch(text):
                target = self.target(place)
                left += [(target, False)] if target is not None else []
            if may_be_set or not GOES.fullmatch(text):
                if not ENDS.fullmatch(text):
                    left.append((place + count, bool(TEST.fullmatch(text) or SUM.fullmatch(text))))
        return {place for place, _ in reached}

    def sweep(self) -> set[int]:
        """Returns the places of instructions, one after the other."""
        places, place = set(), 0
        while place < self.end:
            places.add(place)
            place += self.instructions[place][0]
        return places

    # The lines.

    def begins(self, place: int) -> bool:
        """Returns whether a line must begin at a place."""
        return place in self.reached or place in self.data or place in self.labels

    def parts(self) -> Iterator[tuple[int, int, str]]:
        """Yields the places where lines begin, each with its count of words and its text. Data have a comment with the instruction that
        they may be."""
        place = 0
        while place < self.end:
            count, text = self.instructions[place]
            word = f"CON {self.words[place]:03X}"
            if place in self.data:
                count, text = self.data[place]
            elif place not in self.reached:
                text, count = (word, 1) if text in ("NOP", word) or count > 1 else (f"{word:<{COMMENT - INDENT}}; {text}", 1)
            elif count > 1 and (place + 1 >= self.end or self.begins(place + 1)):
                count, text = 1, word
            yield place, count, text
            place += count

    def label_targets(self) -> None:
        """Gives a label to each place that is a jump target."""
        lines = {place: text for place, _, text in self.parts()}
        for place, text in lines.items():
            target = self.target(place) if text == self.instructions[place][1] else None
            if target in lines and target not in self.labels:
                self.labels[target] = self.unused(f"L{target:03X}")

    def rows(self) -> Iterator[Row]:
        """Yields the lines of the source: the place, the count of words, the text, and whether it is a word 000 without a label."""
        for place, count, text in self.parts():
            label = self.labels.get(place)
            target = self.target(place) if text == self.instructions[place][1] else None
            if target in self.labels:
                text = f"{text.rpartition(' ')[0]} :{self.labels[target]}"
            front = "\n" if text.startswith("NAME ") else ""
            yield place, count, f"{front}{label + ':' if label else '':<{INDENT - 1}} {text}\n", text in ("CON 000", "NOP") and not label

    def text(self) -> str:
        """Returns the source."""
        return "".join(text for _, _, text, _ in self.rows())

    def with_end(self) -> tuple[str, str]:
        """Returns the source up to the first words 000 that fill the page, and a description of what follows them."""
        rows = list(self.rows())
        zeros = [is_zero for *_, is_zero in rows]
        at = next((at for at in range(len(rows)) if zeros[at:at + FILL] == [True] * FILL), len(rows))
        return "".join(text for _, _, text, _ in rows[:at]), "".join(self.end_of(rows[at:]))

    def end_of(self, rows: list[Row]) -> Iterator[str]:
        """Yields the lines of the description: the lines of the source after their places, the id and the checksum."""
        words = self.words[ID_PLACE:CHECKSUM_PLACE]
        letters = "".join(chr(word | (0 if word & 0x20 else 0x40)) for word in reversed(words))
        has_id = any(words) and max(words) < 0x40 and '"' not in letters
        behind = None
        for place, count, text, is_zero in rows:
            if has_id and ID_PLACE <= place < CHECKSUM_PLACE:
                yield f'id "{letters}"\n' if place == ID_PLACE else ""
            elif place == CHECKSUM_PLACE and self.words[place] == checksum_of(self.words[:place]):
                yield "checksum\n"
            elif not is_zero:
                yield text if place == behind else f"at {place:03X}\n{text}"
                behind = place + count
