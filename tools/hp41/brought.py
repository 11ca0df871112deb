"""What became of the files that the page has imported: whether the bench accepted the commands that load them."""
import re
from typing import Any

from .doubts import DOUBTFUL
from .parts import Part, refusal_of
from .plugged import OF_FILE

# What is said of commands that were not executed, because all that waited were dropped.
DROPPED = "its commands were stopped before the bench had read them"


class Brought:
    """The commands that tools/import made of some files, and its messages."""

    def __init__(self, parts: list[Part], told: str) -> None:
        """`parts` are those of the deck, and `told` are the messages."""
        self.parts, self.messages = parts, told

    def told(self, queue: list[Part]) -> dict[str, Any]:
        """Returns how many commands still wait in the queue, the messages, and whether the bench has accepted all commands that do not
        wait. A file that was not loaded is named before all others, with the refusal, and the messages do not say that it is in."""
        name, lost, whys = "a file", [], []
        for part in self.parts:
            found = None if part.is_command else OF_FILE.fullmatch((part.text.splitlines() or [b""])[-1])
            name = found[1].decode("utf-8", "replace") if found else name
            why = self.why(part, queue)
            if why:
                lost.append(name.split(":")[0])
                whys.append(f"{name} was not loaded: {why}")
        is_in = re.compile(rf"import: (?:{'|'.join(map(re.escape, lost))}): {DOUBTFUL}:.*")
        others = [line for line in self.messages.splitlines() if not (lost and is_in.fullmatch(line))]
        return {"waits": sum(part in queue for part in self.parts), "told": "\n".join([*whys, *others]), "good": not whys}

    @staticmethod
    def why(part: Part, queue: list[Part]) -> str:
        """Returns why a command is not executed; an empty text if it is, or waits."""
        if not part.is_command or part in queue:
            return ""
        refusal = refusal_of(part.entry.reply) if part.entry else DROPPED
        return f"{refusal}  {' '.join(part.words)}" if part.entry and refusal else refusal or ""
