"""Forms of whole sources in other dialects: addresses and words before the lines, as listings have them, and labels with signs."""
import re

# A row of tools/list: address and words, or spaces; then the number of the line in its columns, and the line.
ROW_OF_LIST = re.compile(r"(?=.{13}  [ \d]{3}\d(?:  |$))(?:[0-9A-F]{4}  [0-9A-F]{3}(?: [0-9A-F]{3})?)? *\d+(?:  (.*))?")
# A row with an address and one or two words before the line; and one with words only.
ROW_OF_OTHERS = re.compile(r"\s*[0-9A-F]{4}:?\s+[0-9A-F]{3}(?:\s+[0-9A-F]{3})?\s+(\S.*)", re.I)
WORDS_ONLY = re.compile(r"\s*[0-9A-F]{4}:?\s+[0-9A-F]{3}(?:\s+[0-9A-F]{3})?\s*(?:\.\. [0-9A-F]{4})?", re.I)
LABELS_OF_LIST = re.compile(r"Label +(?:Page +)?Address +Line.*")
HEAD_OF_LIST = re.compile(r"\w+: page [4-9A-F], bank [1-4], .*")
COMMENT = re.compile(r"\s*(?:[;*#]|//).*")

SIGNED = re.compile(r"[#*][A-Za-z0-9_]+")


def without_columns(texts: list[str]) -> tuple[list[str], bool]:
    """Returns the lines of a source without addresses, words and line numbers before them, and whether it had them. The number of lines
    does not change."""
    if any(map(ROW_OF_LIST.fullmatch, texts)):
        found: list[str] = []
        is_over = False
        for text in texts:
            row = ROW_OF_LIST.fullmatch(text)
            is_over |= LABELS_OF_LIST.fullmatch(text) is not None
            if not is_over and not row and text.strip() and not WORDS_ONLY.fullmatch(text) and not HEAD_OF_LIST.fullmatch(text):
                return texts, False
            found.append((row[1] or "") if row and not is_over else "")
        return found, True
    rows = [text for text in texts if text.strip() and not COMMENT.fullmatch(text)]
    if not rows or not all(ROW_OF_OTHERS.fullmatch(text) or WORDS_ONLY.fullmatch(text) for text in rows) or not any(
            map(ROW_OF_OTHERS.fullmatch, rows)):
        return texts, False
    return [row[1] if row else "" if WORDS_ONLY.fullmatch(text) else text
            for text in texts for row in [ROW_OF_OTHERS.fullmatch(text)]], True


def with_letters(texts: list[str]) -> tuple[list[str], dict[str, str]]:
    """Returns the lines of a source in which names begin with a letter in place of # or *, and the new name of each. A word with such a
    sign is a name if it begins a line, and another line has it as a later word."""
    firsts = {words[0].rstrip(":") for words in (text.split() for text in texts) if words and SIGNED.fullmatch(words[0].rstrip(":"))}
    later = {word for text in texts for word in text.split(";")[0].split()[1:]}
    names: dict[str, str] = {}
    taken = {word.rstrip(":") for text in texts for word in text.split()[:1]}
    for name in sorted(firsts & later):
        plain = name[1:] if name[1].isalpha() else f"L{name[1:]}"
        new = next(one for one in (plain[:12], *(f"{plain[:9]}_{number}" for number in range(2, 100))) if one not in taken)
        names[name] = new
        taken.add(new)
    if not names:
        return texts, names


    def renamed(found: re.Match[str]) -> str:
        """Returns the new name of a name; a word that is none is not changed."""
        return names.get(found[1], found[1])

    return [re.sub(r"(?<!\S)([#*][A-Za-z0-9_]+)(?=[:\s]|\Z)", renamed, text.split(";")[0]) + text[len(text.split(";")[0]):]
            for text in texts], names
