"""A desk with a bench: one process of `bench run -`, the commands that it was given, and its replies.

Everything about the calculator is computed by the bench; this module only splits its replies into parts. Runs, steps and traces are
executed in pieces, so that they can be stopped."""
import re
import time
from typing import Optional

from .addresses import Labels
from .alpha import PROBES, takes_letters, typed_keys
from .benches import Bench
from .beside import R00, Beside
from .branches import Branch
from .coded import Typing, coded
from .decks import LONGEST_DECK, MEMORY, NO_ANSWER, Failure, lines_of
from .decks import text_of as text_of_line
from .keyboard import KEYS
from .explaining import Explained, is_carrying, of_line, of_word
from .foreseen import Around, program_at, program_in_page
from .history import History, Place, State
from .lessons import OpenLesson
from .lights import AFTER, BEFORE, PROMPT, Lights, Seen
from .matches import whole
from .memory import MAIN_START, Memory
from .pageends import is_cut, joined, lists_at, why_cut
from .paging import Listed, Pages
from .parts import MOST_STEPS, NO_END, Entry, Part, command_of, parts_of, refusal_of
from .plugged import Names
from .positions import Position, broken_in, in_memory, in_page, line_after
from .repeating import Renewal
from .stubs import FLAGS_AT
from .typed import Text
from .values import text_of

# The intended time for a piece of a run, in seconds.
PIECE = 0.02

# How many of the last steps of a long trace are read one by one, and after how many of the last commands that wait the state is read.
LAST_STEPS = 200

# After how many bytes another bench goes on. A bench reads at most LONGEST_DECK bytes, and a command of a request has up to 8 MB.
MOST_SENT = 50_000_000

RAN = re.compile(r"ran ([0-9]+) ([A-Z][a-z]+)")

# A name that is being typed. Keys are letters in it, as they are with flag 48 set outside a prompt.
NAME = re.compile(r'^(?:GTO|XEQ|LBL) "[^"]*_$')

PAGES = "456789ABCDEF"
FLAG_25 = 1 << 55 - 25

# Commands that make steps; the refusals that an instruction can have, and that of a program line that is not supported.
STEPPING = re.compile(rb"[ \t]*(?:run|step|trace)\s")
OF_WORDS, OF_LINES = re.compile("! (0[6-9]|1[0-2]) "), "! 13 "
MOST_REGISTERS = 320
VIEWS = ("cpu", "stack", "flags", "alpha", "display", "pos", "lines", "functions")


class Desk:
    """The bench, the commands that it was given, the commands that wait, and the state of the bench."""

    def __init__(self, memory: Optional[str] = None, beside: Optional[Beside] = None) -> None:
        """Starts a bench with `memory` registers of main memory; None means the default. `beside` is the bench that is asked about
        instructions, if there is one already."""
        self.words = [] if memory is None else ["--memory", memory]
        self.top = MAIN_START + (int(memory) if memory and memory.isdigit() else MOST_REGISTERS)
        self.number, self.pages = 0, Pages()
        # Its command line differs from that of the session's bench, so that a list of processes shows which one it is.
        self.beside = beside or Beside(lambda: Bench(["--memory", MEMORY]))
        self.start()

    def another(self) -> "Desk":
        """Returns an empty desk with the same memory. The command line of its bench differs too."""
        return Desk(self.words[1] if self.words else MEMORY, self.beside)

    def begin(self) -> None:
        """Starts an empty bench in place of the one that runs."""
        self.bench.close()
        if self.renewal:
            self.renewal.bench.close()
        self.start()

    def start(self) -> None:
        """Starts an empty bench."""
        self.bench, self.most = Bench(self.words), MOST_SENT
        self.renewal: Optional[Renewal] = None
        self.number += 1
        self.log: list[Entry] = []
        self.queue: list[Part] = []
        self.lesson: Optional[OpenLesson] = None
        self.breaks: set[tuple[str, str]] = set()
        self.lights, self.labels, self.names = Lights(), Labels(), Names()
        self.coded: tuple[list[str], list[str], bytes, bool, list[list[str]]] = ([], [], b"", False, [])
        # The last states, and how often pages were plugged or unplugged.
        self.history, self.plugs = History(), 0
        # The number of steps in a piece, the number of steps that were made, and how many of them were made before the last look.
        self.size, self.made, self.seen = 256, 0, 0
        try:
            self.look()
        except Failure as failure:
            self.bench.close_input()
            raise Failure(self.bench.why() or str(failure), NO_ANSWER) from failure

    # Commands that are given.

    def deck(self) -> bytes:
        """Returns the session as a deck. Of a command that is being executed in pieces, it has the steps that were made."""
        return self.branch_to(len(self.log)).deck()

    def branch_to(self, count: int, steps: int = 0) -> Branch:
        """Returns the session up to the end of an entry: the first `count` entries. Of the last one only some steps were made, if `steps` is
        not 0."""
        entries, doing = self.log[:count], self.doing()
        texts = [entry.text if entry.text.endswith(b"\n") else entry.text + b"\n" for entry in entries]
        if steps or doing is not None and len(entries) == len(self.log):
            steps = steps or self.queue[0].asked
            texts[-1] = Part(texts[-1], True).parted(steps)[0]
        return Branch(texts, self.lesson.kept(entries, steps) if self.lesson else None)

    def branch_at(self, number: int) -> Branch:
        """Returns the session up to the state with a number."""
        if not 0 <= number <= self.history.end:
            raise Failure(f"there is no state {number}: the last one of the session is {self.history.end}")
        place = self.history.place(number)
        return self.branch_to(place.entries, place.steps)

    def doing(self) -> Optional[bytes]:
        """Returns the command that is being executed in pieces, with the number of steps that were made; None if there is none."""
        part = self.queue[0] if self.queue else None
        if part and part.kind and part.entry:
            return command_of(part.kind, part.asked)
        return None

    def give(self, deck: bytes, is_first: bool = False, goes_on: bool = False) -> list[Part]:
        """Adds the parts of a deck after those that wait, and returns them. If `is_first` is set, they are added before all others, and a
        running command is split. If `goes_on` is set, a run that ends at its limit is followed by another one."""
        parts = parts_of(deck)
        for part in parts:
            part.goes_on = goes_on and part.kind == "run"
        if is_first:
            self.part_here()
            self.queue = parts + self.queue
        else:
            self.queue += parts
        return parts

    def part_here(self) -> None:
        """Splits a command that is executed in pieces: its entry gets the number of steps that were made, and the rest becomes a command
        of its own."""
        part, doing = self.queue[0] if self.queue else None, self.doing()
        if part and part.kind and part.entry and doing is not None:
            part.text = part.entry.text = doing
            rest = self.queue[0] = Part(command_of(part.kind, part.left), True, part.goes_on)
            rest.is_repeated = part.is_repeated
            if self.lesson:
                self.lesson.split(part, rest)

    def stop(self) -> None:
        """Drops the commands that wait. Those of a lesson that have not been started go back to the lesson."""
        self.part_here()
        if self.lesson:
            self.lesson.take_back(self.queue)
        self.queue = []

    # Commands that are executed.

    def go(self, seconds: float, steps: Optional[int] = None, parts: Optional[int] = None) -> None:
        """Executes commands that wait for about `seconds`: at most so many steps and parts, and at least one command or a piece of one.
        Each step of a trace adds a state to the history."""
        until, has_asked = time.monotonic() + seconds, False
        while self.queue and (steps is None or steps > 0) and (parts is None or parts > 0):
            if has_asked and time.monotonic() >= until or not self.is_renewed(until if parts is None else None):
                break
            part = self.queue[0]
            has_asked |= part.is_command
            before = part.asked
            self.carry_out(part, self.piece(part, steps))
            if part.kind:
                steps = None if steps is None else steps - (part.asked - before)
            if part.kind == "trace":
                self.look()
            if part.left == 0:
                self.queue.pop(0)
                if part.is_command and part.kind != "trace":
                    if len(self.queue) <= LAST_STEPS:
                        self.look()
                    else:
                        self.skip()
                parts = None if parts is None else parts - 1
                if part.goes_on and part.reason == "Limit":
                    self.queue.insert(0, Part(b"run %d\n" % MOST_STEPS, True, True))

    @staticmethod
    def piece(part: Part, steps: Optional[int]) -> Optional[int]:
        """Returns the most steps of the next piece of a part; None if there is no limit. The last steps of a trace are made one by one."""
        if part.kind != "trace":
            return steps
        most = 1 if part.left <= LAST_STEPS else part.left - LAST_STEPS
        return most if steps is None else min(most, steps)

    def is_renewed(self, until: Optional[float]) -> bool:
        """Has another bench go on, if this one has read nearly as many bytes as it reads. Returns whether commands can be executed."""
        if self.renewal is None:
            if self.bench.sent < self.most:
                return True
            doing, texts = self.doing(), [entry.text for entry in self.log if entry.reply != [NO_END]]
            self.renewal = Renewal(Bench(self.words), texts if doing is None else [*texts[:-1], doing])
        if not self.renewal.is_over(until):
            return False
        self.bench.close()
        self.bench, self.renewal = self.renewal.bench, None
        # A session that is too long itself is not executed again.
        self.most = MOST_SENT if self.bench.sent < MOST_SENT // 2 else LONGEST_DECK
        return True

    def carry_out(self, part: Part, most: Optional[int]) -> None:
        """Executes a part, or its next piece."""
        self.is_seen = False
        entry = part.entry
        if entry is None:
            if self.log and self.log[-1].reply == [NO_END]:
                self.history.withdraw(len(self.log))
                self.log.pop().number = -1
            entry = part.entry = Entry(part.text, part.is_repeated)
            entry.number = len(self.log)
            self.log.append(entry)
        if part.is_open:
            # The bench would wait for the `end`. At the end of its input it would print this refusal.
            entry.reply = [NO_END]
        elif part.kind:
            self.carry_piece(part, part.kind, entry, most)
        elif part.pieces and all(isinstance(piece, Text) or piece in KEYS for piece in part.pieces):
            self.press(part, entry)
        elif part.is_command:
            entry.reply, pos = self.bench.ask_all([part.text.rstrip(b"\n"), b"show pos"])
            self.keep_up(part, entry)
            self.lights.follow(pos[0])

    def carry_piece(self, part: Part, kind: str, entry: Entry, most: Optional[int]) -> None:
        """Executes the next piece of a run, of a step with a count, or of a trace. Pieces become longer while they are fast."""
        self.lights.is_on = False
        count = min(part.left, self.size, most or self.size)
        begun = time.monotonic()
        reply = self.made_reply(kind, count)
        took = time.monotonic() - begun
        if count == self.size:
            self.size = min(2 * count, 1_000_000) if took < PIECE else max(count // 2, 16) if took > 4 * PIECE else count
        part.left, part.asked = part.left - count, part.asked + count
        if kind == "run":
            ran, reason = whole(RAN, reply[0]).groups()
            part.reason = reason
            part.ran, self.made = part.ran + int(ran), self.made + int(ran)
            entry.reply = [f"ran {part.ran} {reason}", *reply[1:]]
            part.left = part.left if reason == "Limit" else 0
        else:
            is_refused = refusal_of(reply) is not None
            self.made += count - is_refused
            # How many of several steps were made before the refused one is not known.
            self.seen = self.made if is_refused else self.seen
            entry.add(reply)
            part.left = 0 if is_refused else part.left

    def made_reply(self, kind: str, count: int) -> list[str]:
        """Has the bench make steps, and returns its reply. A step may end a program, and the next one may call a function without a program:
        only a trace prints the modes between them."""
        has_modes = kind == "trace" or kind == "step" and self.lights.running and count > 1
        reply, pos = self.bench.ask_all([b"%s %d" % (b"trace" if has_modes else kind.encode(), count), b"show pos"])
        for line in [*(reply if has_modes else []), *pos]:
            self.lights.follow(line)
        return reply[len(reply) - (refusal_of(reply) is not None):] if has_modes and kind == "step" else reply

    def press(self, part: Part, entry: Entry) -> None:
        """Presses keys in turn, up to the first one that is refused. In the session, the names of keys replace texts and numbers."""
        names: list[str] = []
        for piece in part.pieces:
            keys = [piece]
            if isinstance(piece, Text):
                keys = typed_keys(piece, entry.key is None and takes_letters(
                    *(answer[0] for answer in self.bench.ask_all([probe.encode() for probe in PROBES]))))
            names += keys
            if entry.key is None:
                self.press_names(entry, keys)
        if names != part.words[1:]:
            entry.text = f"key {' '.join(names)}".encode("latin-1") + part.text[len(text_of_line(part.text)):]

    def press_names(self, entry: Entry, names: list[str]) -> None:
        """Presses keys by their names, up to the first one that is refused."""
        for name in names:
            asked = [*BEFORE, b"key " + name.encode(), *AFTER]
            replies = self.bench.ask_all(asked)
            # X is in the fourth line of the stack.
            views = [reply[3 if asked[at] == b"show stack" else 0] for at, reply in enumerate(replies) if at != len(BEFORE)]
            if replies[len(BEFORE)]:
                entry.reply, entry.key = replies[len(BEFORE)], name
                return
            self.lights.press(name, Seen(*views[:len(BEFORE)]), Seen(*views[len(BEFORE):]))

    def keep_up(self, part: Part, entry: Entry) -> None:
        """Records what an accepted command changes if no command shows it."""
        if refusal_of(entry.reply) or not part.words:
            return
        word, words = part.words[0], part.words
        if word == "reset":
            self.lights = Lights()
        elif word in ("break", "unbreak"):
            place = (words[1], words[2].upper() if words[1] in ("w", "p") else f"{int(words[2]):04d}")
            (self.breaks.add if word == "break" else self.breaks.discard)(place)
        elif word in ("asm", "words", "image", "unplug"):
            self.labels.follow(lines_of(part.text))
            before = self.log[-2].text if len(self.log) > 1 else b""
            self.names.follow(lines_of(part.text), before, self.labels)
            self.plugs += 1

    def name_refused(self, text: str) -> None:
        """Notes what was refused of the last command. If a step was refused, its line or instruction is the next one, with this text."""
        entry = self.log[-1] if self.log else Entry(b"")
        refusal, (mode, place) = refusal_of(entry.reply) or "", self.views["pos"][0].split()
        is_step = entry.key == "SST" or entry.key is None and STEPPING.match(entry.text + b"\n") is not None
        if is_step and text and mode == "Micro" and OF_WORDS.match(refusal):
            entry.refused = f"{text} at {place}"
        elif is_step and text and mode != "Micro" and refusal.startswith(OF_LINES):
            entry.refused = f"line {self.number_at(place)}, {text}, is not supported"
        elif entry.key and len(entry.text.split()) > 2:
            entry.refused = f"the key {entry.key}"

    def number_at(self, place: str) -> str:
        """Returns the number of the line at a position, or after null bytes there."""
        held = ((line[:4], row[0]) for line, row in zip(self.views["lines"], self.views["coded"]))
        paged = ((row[0], row[2]) for row in self.views["paged"])
        return next((number for at, number in (paged if place[0] == "P" else held) if at >= place.removeprefix("P")), "")

    # The state of the bench.

    def look(self) -> State:
        """Reads the views of the bench. Returns its state, which is then the last one of the history."""
        asked = [*(f"show {view}" for view in VIEWS), *(f"list {page}000 1" for page in PAGES)]
        *replies, printed = self.bench.ask_all([*(command.encode() for command in asked), Memory.command(self.top)])
        views: State = dict(zip(VIEWS, replies))
        memory = Memory([line[4:] for line in printed], self.top)
        mode, place = views["pos"][0].split()
        lists = lists_at(int(place, 16)) if mode == "Micro" else []
        views["memory"], views["divided"] = memory.digits, [*memory.divided(), memory.is_sound()]
        views["registers"] = memory.data_registers()
        views["values"] = [text_of(digits) for digits in views["registers"]]
        views["numbers"] = [text_of(line[2:]) for line in views["stack"]]
        views["pages"] = [page for page, listed in zip(PAGES, replies[len(VIEWS):]) if refusal_of(listed) is None]
        views["listing"] = self.listing(self.bench.ask_all(lists), place) if lists else []
        views["coded"] = self.coded_lines(views["lines"], views["functions"], memory.program_bytes())
        views["made"], self.seen, self.is_seen = self.made - self.seen, self.made, True
        at = self.position(mode, place, views["lines"], memory)
        views["line"], views["broken"], views["paged"], self.why_no_line = at
        self.views = views
        state = self.state()
        self.name_refused(state["word"])
        self.history.add(state, self.place(views["made"]))
        return state

    def place(self, made: int) -> Place:
        """Returns the place of the state in the session; `made` are the steps since the state before."""
        steps = self.queue[0].asked if self.doing() is not None else 0
        lights = self.lights
        return Place(len(self.log), steps, made, lights.shift, lights.program, lights.is_on, lights.running)

    def skip(self) -> None:
        """Notes where the state is, without reading it."""
        self.history.skip(self.place(self.made - self.seen))
        self.seen = self.made

    def coded_lines(self, lines: list[str], functions: list[str], data: bytes) -> list[list[str]]:
        """Returns the number and the bytes of each line in memory, and in program mode the keys that type it. They are kept until lines,
        functions of modules, bytes or the mode change."""
        asked = lines, functions, data, self.lights.program
        if self.coded[:4] != asked:
            typing = Typing([line[5:] for line in lines], functions) if self.lights.program else None
            self.coded = *asked, coded([(int(line[:4]), line[5:]) for line in lines], data, typing)
        return self.coded[4]

    def position(self, mode: str, place: str, lines: list[str], memory: Memory) -> Position:
        """Returns what is at the position of the program; no line while a function in microcode runs."""
        if mode == "Micro":
            return Position([], broken_in(lines, memory.program_bytes()), [], "")
        if not place.startswith("P"):
            return in_memory(place, lines, memory)
        image, = self.bench.ask_all([b"show image %s" % place[1].encode()])
        return in_page(place, [] if refusal_of(image) else image, memory, self.pages)

    def listing(self, lists: list[list[str]], place: str) -> list[list[str]]:
        """Returns the lines around an address, taken from the first of these lists in which an instruction ends at the address."""
        def ends(lines: list[str]) -> bool:
            """Returns whether the last instruction of a list ends at the address."""
            last = lines[-1]
            return int(last[:4], 16) + len(last[6:13].split()) == int(place, 16)

        *before, behind = [[] if refusal_of(lines) else lines for lines in lists]
        lines = next((some for some in before if some and ends(some)), []) + behind
        return [joined([line[:4], self.labels.of(line[:4]), line[6:]], self.word_at, self.beside.listed) for line in lines]

    def word_at(self, address: str) -> list[str]:
        """Returns the line that lists the word at an address; nothing if none can be read there."""
        reply, = self.bench.ask_all([f"list {address} 1".encode()])
        return [] if refusal_of(reply) else reply

    def state(self) -> State:
        """Returns the state for the page."""
        display = self.views["display"][0]
        flags, is_name = self.views["flags"][0], NAME.search(display) is not None
        spells = is_name or "48" in flags.split() and not PROMPT.fullmatch(display)
        return {**self.views, "shift": self.lights.shift, "program": self.lights.program, "running": self.lights.running,
                "breaks": sorted([kind, place] for kind, place in self.breaks), "spells": spells,
                "writable": sorted([page, bank] for page, bank in self.names.written if (page, bank) in self.names.known),
                "plugged": self.names.told(), "keys_if": self.lights.keys_if(display, flags, is_name), "off": self.is_off(), "returns": None,
                "label": self.labels.of(self.views["pos"][0].split()[1]) if self.views["listing"] else "",
                "last": self.log[-1].told() if self.log else ["", []], "entries": len(self.log),
                "doing": (self.doing() or b"").decode() if self.queue and self.queue[0].left else "", **self.explained()}

    def is_off(self) -> Optional[bool]:
        """Returns whether the display is off: not if it shows something, or if a key has just turned it on; None if this is not known."""
        return False if self.views["display"][0] or self.lights.is_on else None

    def explained(self) -> dict[str, object]:
        """Returns what the next instruction or line is, what it does, in a sentence, and the name of a register that it changes; empty
        texts if this is not known. If it is not known whether the display is off, `nexts` are the sentences for one that is on and for
        one that is off."""
        one = self.next_word() if self.views["pos"][0].startswith("Micro") else self.next_line()
        if one is None:
            return {"word": "", "next": self.why_no_line, "nexts": [], "asks": ""}
        is_off = self.is_off()
        nexts = [one.sentence(other) for other in (False, True)] if is_off is None else []
        return {"word": one.text, "next": one.sentence(is_off), "nexts": nexts if len(set(nexts)) > 1 else [], "asks": one.asks()}

    def next_word(self) -> Optional[Explained]:
        """Returns what is said about the next instruction; None if its second word cannot be read."""
        views, place = self.views, self.views["pos"][0].split()[1]
        listed = next((text for at, _, text in views["listing"] if at == place), "")
        if listed and is_cut(place, listed):
            self.why_no_line = why_cut(place, listed)
            return None
        words, text = listed[:9].strip(), listed[9:]
        around = Around(pages=views["pages"], writable=self.names.pages(True), protected=self.names.pages(False), top=self.top)
        after = self.beside.after(words, views["cpu"]) if is_carrying(text) else None
        return of_word(text, views["cpu"], after, around)

    def next_line(self) -> Optional[Explained]:
        """Returns what is said about the next program line; None if no line can be read."""
        views, place = self.views, self.views["pos"][0].split()[1]
        if not views["line"]:
            return None
        held = [(line[:4], line[5:]) for line in views["lines"]]
        at, text = views["line"]
        is_page = place[0] == "P"
        program = program_in_page(views["paged"], at) if is_page else program_at(held, at)
        behind = line_after(at, [(row[0], row[1]) for row in views["paged"]] if is_page else held, views["broken"], is_page)
        around = Around(len(views["registers"]), program, [text for _, text in held], views["functions"], after=behind)
        one = of_line(text, views["numbers"], views["values"], views["alpha"][0], views["flags"][0], around)
        one.error()
        if one.unsure:
            one.is_over = self.is_over(*one.unsure)
        return one

    def is_over(self, line: str, register: str) -> Optional[bool]:
        """Returns whether the bench beside finds the result of a line out of range; R00 in the line is this data register."""
        # Flag 25 would hide the message.
        flags = f"{int(self.views['memory'][FLAGS_AT], 16) & ~FLAG_25:014X}"
        memory = {**dict(enumerate(row[2:] for row in self.views["stack"])), FLAGS_AT: flags}
        return self.beside.is_over(line, {**memory, R00: self.views["registers"][int(register[1:])]} if register else memory)

    def plugged(self) -> list[tuple[str, str, str]]:
        """Returns the plugged banks: for each its page, its bank, and the name of its file or of its first label, if it has one."""
        asked = [(page, bank) for page in PAGES for bank in "1234"]
        replies = self.bench.ask_all([f"show image {page} b{bank}".encode() for page, bank in asked])
        return [(*one, self.names.of(*one)) for one, reply in zip(asked, replies) if refusal_of(reply) is None]

    def listed(self, page: str, bank: str, is_words: bool) -> Listed:
        """Returns the instructions in a bank of a page, or the lines of its programs, whether they run or not."""
        image, = self.bench.ask_all([f"show image {page} b{bank}".encode()])
        if refusal_of(image):
            raise Failure(f"page {page}, bank {bank}: {image[-1]}: plug a module there first")
        if not is_words:
            return self.pages.lines(page, tuple(image))
        return Listed([[place, self.labels.of(place), words, text] for place, words, text in self.pages.words(page, tuple(image))], [])

    # Exports.

    def has_no_program(self) -> bool:
        """Returns whether memory has no line of a program but `.END.`."""
        return [line[5:] for line in self.views["lines"]] == [".END."]

    def leaves(self, page: str) -> bytes:
        """Returns a deck for tools/export, with the image of a page, or without a page with the bytes of the programs in memory."""
        if page:
            image, = self.bench.ask_all([b"show image %s" % page.encode()])
            if refusal_of(image):
                raise Failure(f"page {page}: {image[-1]}: plug a module there first")
            return "\n".join([f"image {page}", *image, "end", ""]).encode()
        printed, = self.bench.ask_all([Memory.command(self.top)])
        # The bench drops the last END of a block: with one more, that of the last program stays as it is.
        data = Memory([line[4:] for line in printed], self.top).program_bytes().hex().upper()[:-6] + "C0000D"
        lines = [data[at:at + 64] for at in range(0, len(data), 64)]
        return "\n".join(["size 0", "load", *lines, "end", ""]).encode()
