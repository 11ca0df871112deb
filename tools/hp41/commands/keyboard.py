"""Prints the keyboard as a picture, or the keys by their letters.

usage: tools/keyboard text
       tools/keyboard letters
       tools/keyboard svg >docs/keyboard.svg

  text      the keyboard in characters, as in docs/KEYBOARD.md
  letters   the keys by their letters, as in docs/KEYBOARD.md
  svg       the picture docs/keyboard.svg

Status 0: the picture is written. 2: the command line is wrong."""
import sys

from ..keyboard import letters, picture, svg

PICTURES = {"text": picture, "letters": letters, "svg": svg}


def main(words: list[str]) -> int:
    """Prints a picture of the keyboard. Returns the status."""
    if words in (["--help"], ["-h"]):
        print(__doc__.strip())
        return 0
    if len(words) != 1 or words[0] not in PICTURES:
        found = f"'{' '.join(words)}'" if words else "nothing"
        print(f"keyboard: found {found}, expected text, letters or svg; see --help", file=sys.stderr)
        return 2
    sys.stdout.write(PICTURES[words[0]]())
    return 0
