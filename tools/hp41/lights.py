"""SHIFT, program mode, and whether a program runs, which no view of the bench prints while a function in microcode runs. The first two are
read from what the bench replies to each key. In the same way it is read from a key that an empty display is on; otherwise
tools/hp41/displays.py finds whether it is.

Each key is sent with the views of the display and of the position before and after it. The display decides: in program mode it is the
program line at the position, and a prompt shows IND if SHIFT was pressed in it.

While a function in microcode runs, its caller is the program if a program ran before it. So the mode is read after each command."""
import re
from typing import NamedTuple

from .values import text_of

# A prompt on the display, in which SHIFT adds IND. While a name is typed there is no prompt.
PROMPT = re.compile(r"(?:RCL|STO|ISG|VIEW|ASTO|ARCL|ST[-+*/]|SF|CF|FS\?|FIX|SCI|ENG|GTO|XEQ|LBL)(?: IND)?(?: ST)? [.0-9]?_{1,2}")

# A program line on the display, with its number, or the sign for a line that cannot be read. No number in X looks like this.
PROGRAM_LINE = re.compile(r"[0-9]{2,4} .*|\?")

# What is asked before and after each key.
BEFORE, AFTER = (b"show pos", b"show display"), (b"show pos", b"show display", b"show alpha", b"show flags", b"show stack")


class Seen(NamedTuple):
    """What the bench shows before or after a key."""
    pos: str
    display: str
    alpha: str = ""
    flags: str = ""
    x: str = ""

    @property
    def is_idle(self) -> bool:
        """Whether neither a program nor a function runs, so that keys have their effects."""
        return self.pos.startswith("Idle")

    @property
    def is_alpha(self) -> bool:
        """Whether the display may show a text: that of ALPHA, if flag 48 is set, or that of X."""
        is_x = text_of(self.x[2:]) == f'"{self.display}"'
        return is_x or "48" in self.flags.split() and self.display == self.alpha


class Lights:
    """SHIFT and program mode, as they are after the last key."""

    def __init__(self) -> None:
        """Begins with both off, and the display on."""
        self.shift = self.program = False
        # Whether a program runs, or a function in microcode that a program has called.
        self.running = False
        # Whether the last key has turned the display on, and nothing was executed afterwards, which may have turned it off.
        self.is_on = True
        # What was on the display after the last key: a prompt that is open there stays open under a message.
        self.prompt = ""

    def follow(self, position: str) -> None:
        """Reads the mode of a position. While a function runs, its caller does not change."""
        mode = position.partition(" ")[0]
        if mode in ("Idle", "Run"):
            self.running = mode == "Run"

    def keys_if(self, display: str, flags: str, is_name: bool) -> str:
        """Returns in which state the keys of program lines type them, if this is not so now. `is_name` is whether a name is being typed."""
        needs = {"after the prompt": is_name or PROMPT.fullmatch(display) is not None, "with ALPHA off": "48" in flags.split(),
                 "with SHIFT off": self.shift}
        return " and ".join(text for text, is_needed in needs.items() if is_needed)

    def press(self, name: str, before: Seen, after: Seen) -> None:
        """Reads the state after an accepted key. While something runs, keys have no effect on it, but turn the display on."""
        self.follow(after.pos)
        # SST executes a line, and so does the key that ends the prompt of XEQ: this line may be OFF.
        is_line = before.is_idle and (name == "SST" or any(one.startswith("XEQ ") for one in (self.prompt, before.display)))
        self.is_on = not is_line
        if not before.is_idle:
            return
        self.prompt = after.display
        if name == "SHIFT":
            is_prompt = PROMPT.fullmatch(after.display) and before.display != after.display
            self.shift = not (self.shift or is_prompt)
            return
        self.shift = False
        if name == "PRGM":
            # PRGM removes each message and is refused in prompts, so that the display shows the line, ALPHA or X.
            self.program = not self.program if after.is_alpha else PROGRAM_LINE.fullmatch(after.display) is not None
