"""Writes a session as one page that needs no server: what the bench has replied, and the page that shows it."""
import json
import os
import re
from typing import Any

from .decks import bytes_of
from .serving import FILES, FOLDER

# Only what is in the file itself is loaded and run.
POLICY = "default-src 'none'; script-src 'unsafe-inline'; style-src 'unsafe-inline'; img-src data:; base-uri 'none'; form-action 'none'"

STYLE = re.compile(r'<link rel="stylesheet" href="([a-z]+\.css)">')
SCRIPT = re.compile(r'<script src="([a-z]+\.js)" defer></script>\n')


def text_of(name: str) -> str:
    """Returns the text of a file of the page."""
    return bytes_of(os.path.join(FOLDER, FILES[name][0])).decode("utf-8")


def recorded(answer: dict[str, Any]) -> bytes:
    """Returns the page with an answer of the server, as the bytes of a file. The scripts follow what they use, because nothing is
    deferred."""
    page = text_of("")
    scripts = SCRIPT.findall(page)
    # In a script element, no text can end it.
    data = json.dumps(answer).replace("<", "\\u003c")
    page = SCRIPT.sub("", page)
    page = STYLE.sub(lambda one: f"<style>\n{text_of(one[1])}</style>", page)
    page = page.replace('<meta charset="utf-8">', f'<meta charset="utf-8">\n<meta http-equiv="Content-Security-Policy" content="{POLICY}">')
    end = f'<script type="application/json" id="recorded">{data}</script>\n' + "".join(
        f"<script>\n{text_of(name)}</script>\n" for name in scripts)
    return page.replace("</body>", f"{end}</body>").encode("utf-8")
