"""Which keys the bench does not support, and why. The bench is asked for each key, and docs/NOT-SUPPORTED.md has the reasons."""
import os
import re

from . import TOP
from .decks import answered, bytes_of
from .keyboard import KEYS
from .parts import refusal_of

NOT_IN_PROFILE, KEY_NOT_HELD = "! 13 NotInProfile", "! 18 KeyNotHeld"

# A row of the table of program lines, and a row of the table of keys.
ROW = re.compile(r"^\| (`.*?`) \| ([a-z][a-z, ]*) \|$", re.M)
KEY_ROW = re.compile(r"^\| `(\w+)` [^|]* \| [^|]*refused[^|]* \| ([^|]*) \|$", re.M)


def reasons() -> tuple[dict[str, str], dict[str, str]]:
    """Returns what the functions that are not supported are, by their names, and what to use instead of keys."""
    text = bytes_of(os.path.join(TOP, "docs", "NOT-SUPPORTED.md")).decode("utf-8")
    kinds = {name: kind for names, kind in ROW.findall(text) for name in re.findall("`([^`]*)`", names)}
    return kinds, {name: instead.replace("`", "") for name, instead in KEY_ROW.findall(text)}


def unsupported() -> dict[str, str]:
    """Returns the reasons by what is pressed, `SIN` or `SHIFT SIN`."""
    kinds, instead = reasons()
    asked = [(keys, function) for key in KEYS.values()
             for keys, function in ((key.name, key.name), (f"SHIFT {key.name}", key.shifted)) if function]
    deck = "".join(f"reset\nkey {keys}\n" for keys, _ in asked).encode()
    found = {}
    for (keys, function), (_, _, answer) in zip(asked, answered(deck)[1][1::2]):
        refusal = refusal_of([line.decode("latin-1") for line in answer])
        function = "S+" if function == "SIGMA+" else function
        if refusal == NOT_IN_PROFILE:
            kind = kinds.get(function)
            found[keys] = f"{function} is not supported{f': the bench has no {kind}' if kind else ''}. In program mode the line is stored."
        elif refusal == KEY_NOT_HELD:
            found[keys] = (f"{function} is not supported. Instead: {instead[function]}" if function in instead else
                           f"{function} is not supported")
    return found
