"""Lists the refused lines of a deck, with the usual causes of their refusals.

usage: tools/where [--memory N] [--brief] [--labels] DECK     (- is standard input)

For each refusal it prints the place and the line:
    line 12: ! 24 Busy
      call 8000
    lines 3-9: ! 41 BadText 4
      line 7: RCL 5
For a block, the place has all its lines, and the refused line follows. If the line shows the cause, the next line has it with its
column. If a line has several keys, the refused one is printed, for
example `key 3 is refused: LN`. After all refusals follow their usual causes, from the sections "If you see" of docs/DECK.md and
docs/ASSEMBLER.md, each with a deck that is refused for it. These are the causes for the same command, for the same mnemonic, or
for one with the same operands; if there are none, all causes of the refusal and its meaning. For a wrong operand, the operands of
the mnemonic are printed; for a wrong command, its forms.

  --brief      prints only places and refusals
  --labels     prints a label after the address of a refusal, if the source of the page is in the deck: the last label at or before
               the address, and the offset in words, for example `! 11 Asleep 8035 PAIR+2`. Labels of several banks are
               separated by `/`
  --memory N   runs the deck with N registers of memory: 64, 128, 192, 256 or 320

The bench runs the deck with two lines before each of its commands. Both lines are refused, so they change nothing, and their
refusals separate the answers of the commands.

Status 0: the deck has no refusal. 1: it has a refusal. 2: the command line is wrong. 3: the deck cannot be read or executed to its
end, or the output cannot be written. 70: the bench gave no answer."""
import re
import sys
from difflib import get_close_matches
from functools import lru_cache
from typing import Iterable, Optional

from ..addresses import tell_labels
from ..command_causes import cause_of, is_no_deck, of_inner, of_open_block
from ..decks import MEMORY, Failure, bytes_of, end_with_reader, is_skipped, items_of, lines_of, memory_in, shown, words_of
from ..dialects import as_own
from ..documents import codes_of, pairs_of, plain, section_of, tables_of
from ..misplaced import CASES, NO_DECK, PROJECT, TABLE, of_content, what_is
from ..refusals import OF_DIGITS, Refused, look_into_blocks, refusals_of
from ..sources import LABEL, Source
from ..usual_causes import DIRECTIVES_OF_OTHERS, of_another_dialect

DOCUMENTS, SECTION = ("DECK.md", "ASSEMBLER.md"), "If you see…"
REFUSALS = [("DECK.md", "Refusals"), ("ASSEMBLER.md", "Errors")]

# Refusals whose causes are found in special ways.
BAD_COMMAND, BAD_NUMBER, BAD_TEXT = "! 50 BadCommand", "! 51 BadNumber", "! 41 BadText"
BAD_LINE, BAD_OPERAND, NO_END = "! 30 BadLine", "! 31 BadOperand", "! 52 NoEnd"

# Refusals whose causes the refused line may show.
SHOWN = (BAD_COMMAND, BAD_NUMBER, BAD_TEXT, BAD_LINE, BAD_OPERAND, "! 01 NoSuchPage", "! 32 LabelTwice", "! 33 NoLabel", "! 34 TooFar",
         NO_END)

# Keys of causes besides the refused word.
COMMAND_IN_A_BLOCK, IN_CAPITALS = "a command in a block", "a command in capitals"
NO_COMMAND, UNKNOWN = "a line of a source or program", "an unknown word"
TOUCHED, BEHIND_LOAD = "an end directly after other signs", "a word after load"
DIRECTIVE_OF_OTHERS = "a directive of other assemblers"


# A row of a table: its refused command or block, its deck, and the cause.
Row = tuple[Refused, str, str]


class Documents:
    """What the documents say about refusals."""

    def __init__(self) -> None:
        """Reads the tables of the documents."""
        self.commands = forms_of(row[:2] for row in tables_of(section_of("DECK.md", "Commands"))[0])
        instructions = tables_of(section_of("ASSEMBLER.md", "Instructions"))[0]
        self.operands = {name: plain(text) for names, text in instructions for name in codes_of(names)}
        operations = re.findall(r"^\|[^|]*\|([^|]*)\|", section_of("PROCESSOR.md", "Arithmetic on a field"), re.M)
        self.operands |= {name: plain(instructions[0][1]) for names in operations for name in codes_of(names)}
        self.others = plain(instructions[-1][1])
        self.others_names = dict(pairs_of(tables_of(section_of("ASSEMBLER.md", "Other dialects"))[0]))
        words = tables_of(section_of("PROCESSOR.md", "The instruction words"))
        self.mnemonics = {name.split()[0] for table in words for row in table for name in codes_of(row[1])} | set(self.operands)
        names = {re.sub(" (?:n|hhh)$", "", name) for table in words for row in table for name in codes_of(row[1])}
        self.names = names | set(self.operands)
        directives = tables_of(section_of("ASSEMBLER.md", "Directives"))[0]
        self.directives = {line.split()[0] for lines, *_ in directives for line in codes_of(lines)}
        sections = [section_of(document, SECTION) for document in DOCUMENTS]
        self.notes = {head.strip("`"): plain(text if head.startswith("`") else head + text) for section in reversed(sections)
                      for head, text in re.findall(r"^- \*\*(.*?)\*\*:?(.*)$", section, re.M)}
        self.meanings = {name: plain(text) for place in REFUSALS
                         for name, text in re.findall(r"^- `(! \d\d \w+)[^`]*`: (.*)$", section_of(*place), re.M)}
        self.rows = [self.row(*cells) for section in sections for cells in tables_of(section)[0]]
        look_into_blocks([one for one, _, _ in self.rows])

    def row(self, deck: str, refusal: str, why: str) -> Row:
        """Returns a row of a table. The last command of its deck is the refused one."""
        lines = [line.encode() + b"\n" for line in codes_of(deck)]
        return Refused(lines, *items_of(lines)[-1], codes_of(refusal)[0]), " / ".join(codes_of(deck)), plain(why)

    def mnemonic_of(self, one: Refused) -> str:
        """Returns the mnemonic of a source line, of one word or of two."""
        words = [word.decode(errors="replace") for word in one.words()]
        return next((name for name in (" ".join(words[:2]), *words[:1]) if name in self.operands), (words or [""])[0])

    def keys_of(self, one: Refused) -> list[object]:
        """Returns the keys by which a cause of this refusal can be found, the most exact first."""
        word = one.word()
        if one.inner is not None and word in self.commands:
            return [COMMAND_IN_A_BLOCK]
        if one.name() == BAD_COMMAND and word not in self.commands:
            return [IN_CAPITALS if word.lower() in self.commands else UNKNOWN if word.islower() else NO_COMMAND]
        if one.inner is not None and one.opener() in OF_DIGITS:
            return [("a line", one.opener())]
        if one.name() == BAD_OPERAND:
            return [word, self.operand_of(one)]
        if one.name() == BAD_LINE:
            return [word, *self.kinds_of_line(one)]
        if one.name() == NO_END:
            kinds = {TOUCHED: self.has_touched_end(one), BEHIND_LOAD: word == b"load" and one.words()[1:]}
            return [kind for kind, good in kinds.items() if good]
        return [word]

    def kinds_of_line(self, one: Refused) -> list[str]:
        """Returns the kinds of a source line that cannot be read. Its words are those after its first label, if it has one."""
        text, second = word_at(one.words(), 0), word_at(one.words(), 1)
        labels = [word for word in (word_at(words_of(one.line()), 0), text) if word.endswith(":")]
        kinds = {"in lower case": text.upper() in self.mnemonics and text not in self.mnemonics,
                 "a label that touches": ":" in text[:-1],
                 "a wrong label": labels[1:] or labels and not LABEL.fullmatch(labels[0].encode()),
                 "no colon": second in self.mnemonics and not text.endswith(":"), "a comment": text[:1] in ("*", "#", "/"),
                 DIRECTIVE_OF_OTHERS: DIRECTIVES_OF_OTHERS.match(text.encode())}
        return [kind for kind, good in kinds.items() if good]

    @staticmethod
    def has_touched_end(one: Refused) -> bool:
        """Returns whether a line of a block without an end ends with `end` directly after other characters."""
        lines = [words_of(line) for line in one.lines[one.first + 1:one.last + 1] if not is_skipped(line)]
        return any(words[-1].endswith(b"end") for words in lines)

    def operand_of(self, one: Refused) -> str:
        """Returns what the document says about the operand of a source line."""
        mnemonic = self.mnemonic_of(one)
        return "a directive" if mnemonic in self.directives else self.operands.get(mnemonic, self.others)

    def causes_of(self, one: Refused) -> dict[str, Optional[str]]:
        """Returns the causes of a refusal: what is printed first for each, and the explanation, if there is one."""
        sign = one.sign()
        if sign:
            return {self.notes[sign[1]]: None}
        keys = self.keys_of(one)
        rows = [(row, self.keys_of(row[0])) for row in self.rows if row[0].name() == one.name()]
        found = self.rows_for(one, keys, rows)
        forms = self.dialect_of(one) if one.name() == BAD_OPERAND or not found or DIRECTIVE_OF_OTHERS in keys else []
        if forms and one.name() == BAD_LINE:
            found = []
        else:
            forms += self.forms_for(one, found)
        notes: dict[str, Optional[str]] = {self.notes[name].strip(): None for name in self.notes if name == one.name()}
        causes: dict[str, Optional[str]] = {}
        if not found and not notes and one.name() not in (BAD_LINE, BAD_OPERAND, BAD_TEXT):
            causes[self.meanings[one.name()]] = None
        # All other causes too, for a program's text or if no cause is known.
        if COMMAND_IN_A_BLOCK not in keys and (one.name() == BAD_TEXT or not found and not forms and not is_explained(one)):
            found += [row for row, others in rows if row not in found and COMMAND_IN_A_BLOCK not in others]
        causes.update(forms)
        causes.update((deck, why) for _, deck, why in found if not has_other_range(one, why))
        return {**causes, **notes} or {self.meanings[one.name()]: None}

    @staticmethod
    def rows_for(one: Refused, keys: list[object], rows: list[tuple[Row, list[object]]]) -> list[Row]:
        """Returns the rows that have the first key that any row has. For a block without an end, returns the rows whose keys it has all."""
        if one.name() == NO_END:
            return [row for row, others in rows if set(others) <= set(keys)]
        alike = ([row for row, others in rows if key in others] for key in keys)
        return next((some for some in alike if some), [])

    def dialect_of(self, one: Refused) -> list[tuple[str, str]]:
        """Returns the translation of a refused source line from another dialect: of its name, or of the whole line."""
        mnemonic = self.mnemonic_of(one)
        if one.name() == BAD_LINE and mnemonic in self.others_names:
            return [(mnemonic, f"a name of another dialect: write {self.others_names[mnemonic]}")]
        own = as_own([one.line()])[0] if one.name() in (BAD_LINE, BAD_OPERAND) else None
        return [(shown(one.line().strip()), of_another_dialect(own))] if own else []

    def forms_for(self, one: Refused, found: list[Row]) -> list[tuple[str, str]]:
        """Returns the operands of a mnemonic, similar mnemonics, or the forms of a command, if no cause is found for the word; for an
        unknown word the forms of similar commands."""
        mnemonic = self.mnemonic_of(one)
        if one.name() == BAD_LINE and not found and is_explained(one):
            return []
        if one.name() == BAD_LINE and not found:
            both = b" ".join(one.words()[:2]).decode(errors="replace")
            alike = get_close_matches(mnemonic, sorted(self.names), 3) or get_close_matches(both, sorted(self.names), 3)
            return [(mnemonic, f"no such mnemonic; similar ones: {', '.join(alike)}")] if alike else []
        if one.name() == BAD_OPERAND and mnemonic not in self.directives:
            return [(mnemonic, f"its operand: {self.operand_of(one)}")]
        if one.name() not in (BAD_COMMAND, BAD_NUMBER) or found:
            return []
        words = [word.decode() for word in self.commands]
        commands = [one.word()] if one.word() in self.commands else [word.encode() for word in get_close_matches(mnemonic, words, 2)]
        return [form for word in commands for form in self.commands[word]]


def word_at(words: list[bytes], at: int) -> str:
    """Returns the text of a word; an empty text if there are fewer words."""
    return b"".join(words[at:at + 1]).decode(errors="replace")


def forms_of(rows: Iterable[list[str]]) -> dict[bytes, tuple[tuple[str, str], ...]]:
    """Returns the forms of the commands, and what they do, by first word."""
    forms: dict[bytes, tuple[tuple[str, str], ...]] = {b"end": ()}
    for form, effect in rows:
        word = codes_of(form)[0].split()[0].encode()
        forms[word] = (*forms.get(word, ()), (form.replace("`", ""), plain(effect)))
    return forms


def told(found: list[Refused]) -> list[str]:
    """Returns the usual causes of refusals as lines, grouped by refusal; if there are none, the meaning of the refusal."""
    documents = Documents()
    groups: dict[str, dict[str, Optional[str]]] = {}
    for one in found:
        groups.setdefault(one.name(), {}).update(documents.causes_of(one))
    return [line for name, group in groups.items()
            for line in (f"{name}:", *(line for head, why in group.items()
                                       for line in (f"  {head}", *([f"    {why}"] if why else []))))]


@lru_cache(None)
def shown_cause(one: Refused) -> str:
    """Returns a line with the cause that the refused line itself shows, and its column; an empty text if it shows none."""
    text = one.line().decode("utf-8", "replace")
    if one.sign() or one.name() not in SHOWN:
        return ""
    opener = one.opener()
    if one.name() == NO_END:
        after = [line.decode("utf-8", "replace").rstrip("\r\n") for line in one.lines[one.first + 1:one.last + 1]]
        open_block = of_open_block(opener.decode(), after)
        if open_block:
            at, column, why = open_block
            return f"\n  line {one.first + 1 + at}: {shown(one.lines[one.first + at].strip())}\n  column {column}: {why}"
    if opener == b"asm" and one.inner is not None:
        source = Source(b"".join(one.lines[one.first + 1:one.last]))
        fault = next((fault for fault in source.faults if fault.at == one.inner - one.first - 1 and str(fault).count(": column ")), None)
        return f"\n  column {str(fault).partition(': column ')[2]}" if fault else ""
    found = of_inner(opener.decode(), text) if one.inner is not None else cause_of(text)
    return f"\n  column {found[0]}: {found[1]}" if found else ""


def is_explained(one: Refused) -> bool:
    """Returns whether a source line shows a cause other than a name that there is not, so that similar names would mislead."""
    cause = shown_cause(one) if one.name() == BAD_LINE else ""
    return bool(cause) and not any(text in cause for text in ("has no ", "no instruction", "expected a label", "if it is a label"))


def has_other_range(one: Refused, why: str) -> bool:
    """Returns whether a cause is a range of numbers, and the refused line shows another cause."""
    ranges, cause = re.findall(r"\b0 to [0-9]+", why), shown_cause(one) if one.name() == BAD_OPERAND else ""
    return bool(ranges and cause) and not any(text in cause for text in ranges)


def lines_told(one: Refused) -> str:
    """Returns a refusal with its place and its line, and the cause that the line shows."""
    line = one.shown()
    told = f"{one.place()}: {one.refusal}\n  {'' if one.inner is None else f'line {one.inner + 1}: '}{line}".rstrip() + one.key()
    return told + shown_cause(one)


def main(words: list[str]) -> int:
    """Prints the refusals of a deck and their usual causes. Returns the status."""
    if words in (["-h"], ["--help"]):
        print(__doc__.strip())
        return 0
    memory = MEMORY
    if "--memory" in words:
        memory, words = memory_in(words)
    options = [word for word in words if word in ("--brief", "--labels")]
    brief = "--brief" in options
    words = [word for word in words if word not in options]
    if len(words) != 1:
        given = f"`{' '.join(words)}`" if words else "nothing"
        raise Failure(f"found {given}, expected one deck: tools/where [--memory N] [--brief] [--labels] DECK", 2)
    try:
        deck = bytes_of(words[0])
    except Failure as failure:
        raise Failure(str(failure), 3) from failure
    other = of_content(deck) or what_is(words[0], CASES, PROJECT, TABLE)
    if other:
        raise Failure(f"{words[0]}: {other}", 3)
    status, found = refusals_of(deck, memory)
    if "--labels" in options:
        tell_labels(lines_of(deck), found)
    end_with_reader()
    is_other = not brief and is_no_deck(lines_of(deck), ((one.first, one.refusal) for one in found))
    if is_other:
        print(NO_DECK)
    for one in [] if is_other else found:
        print(f"{one.place()}: {one.refusal}" if brief else lines_told(one))
    if found and not brief:
        try:
            print(f"\nUsual causes, from docs/{' and docs/'.join(DOCUMENTS)}, each with a deck that is refused for it:",
                  *told(found), sep="\n")
        except Failure as failure:
            print(f"where: {failure}", file=sys.stderr)
    return status
