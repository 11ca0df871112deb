"""Matches of patterns with texts that are known to have their form."""
import re
from typing import AnyStr


def whole(pattern: re.Pattern[AnyStr], text: AnyStr) -> re.Match[AnyStr]:
    """Returns the match of a pattern with a whole text, which must have its form."""
    found = pattern.fullmatch(text)
    assert found is not None, text
    return found


def begin(pattern: re.Pattern[AnyStr], text: AnyStr) -> re.Match[AnyStr]:
    """Returns the match of a pattern with the beginning of a text, which must have its form."""
    found = pattern.match(text)
    assert found is not None, text
    return found
