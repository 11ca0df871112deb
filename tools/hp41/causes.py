"""Why a line of a listing cannot be read: forms of numbers, operands, texts and labels that are not those of the HP-41, functions of other
calculators, functions of modules whose numbers are not known here, several steps on a line, and names that were mistyped.

Each cause has texts that must all be program lines if this is the cause, and the reason. A cause without texts is certain."""
import functools
import re
from itertools import combinations
from typing import Dict, Iterator, List, Tuple

from .documents import codes_of, section_of, tables_of
from .spellings import Speller

DOCUMENT = "PROGRAMS.md"
Cause = Tuple[Tuple[str, ...], str]

# Numbers, each with what to write; the groups of the pattern replace the placeholders.
NUMBERS = [
    (r"([-+]?[0-9.,]+)\s*[x*×·]\s*10\s*(?:\^|↑|\*\*)\s*\+?(-?[0-9]{1,2})", "{0}E{1}", "a power of ten is written with E: write {text}"),
    (r"10([⁰¹²³⁴⁵⁶⁷⁸⁹]+)", "1E{raised}", "raised digits are not read: write {text}"),
    (r"(-?[0-9.]+)[dD]\+?(-?[0-9]{1,2})", "{0}E{1}", "an exponent begins with E: write {text}"),
    (r"([0-9.]+)\s*CHS", "-{0}", "a negative number begins with its minus: write {text}"),
    (r"([0-9]+(?:\.[0-9]*)?)-", "-{0}", "a negative number begins with its minus: write {text}"),
    (r"[-+]+([-+][0-9.]+)", "", "a number has one sign at its beginning"),
    (r"([0-9]{1,3}(?:['_][0-9]{3})+)", "{digits}", "the digits of a number have nothing between them: write {text}"),
    (r"([0-9.]+)\s*%", "{0}", "write {0} and % on two lines"),
    (r"([0-9.]+)/([0-9.]+)", "", "a fraction is no number: write {0}, {1} and / on three lines"),
    (r"([0-9.]*)\s*\*?\s*(?:PI|pi|π)(?:/([0-9]+))?", "", "PI is a line of its own, and so is each number and each function"),
    (r"([0-9.]+)(?:…|\.\.\.)", "{0}", "dots after a number are not read: write all of its digits"),
    (r"0[xX]([0-9A-Fa-f]+)", "{decimal}", "a hexadecimal number: write it in decimal, {text}"),
    (r"([0-9]*[0-9Oo][0-9Oo.]*)", "{zeros}", "the letter O is not the digit 0: write {text}"),
    (r"[-+]?(?:∞|INF|inf|NaN|NAN)", "", "the HP-41 has no such number: the greatest is 9.999999999E99"),
]
PARTS_OF_ONE = {"½": ".5", "¼": ".25", "¾": ".75", "⅓": ".3333333333", "⅔": ".6666666667"}
RAISED = str.maketrans("⁰¹²³⁴⁵⁶⁷⁸⁹", "0123456789")

# Operands of functions.
WITH_OPERAND = re.compile(r"(.+?)\s+(\S+)")
OF_ONE_DIGIT, OF_FLAGS = ("FIX", "SCI", "ENG", "TONE"), ("SF", "CF", "FS?", "FC?", "FS?C", "FC?C")
CONFUSED = str.maketrans("OoQlI|", "000111")
TOUCHING_LETTER = re.compile(r"(STO?[-+*/])(IND\s*)?([XYZTL])", re.I)
INDIRECT = re.compile(r"(\S+) IND", re.I)
TWICE = re.compile(r"(\S+) IND IND (\S+)", re.I)
TWO_OPERANDS = re.compile(r"(\S+ (?:IND )?(?:[0-9]{1,2}|[XYZTL])) (?:[0-9]{1,3}|[XYZTL])", re.I)
AFTER_POINT = re.compile(r"([A-Z<>*/+-]+)\.([0-9]{1,2})", re.I)
VARIABLE = re.compile(r"(STO|RCL|ST[-+*/]|VIEW|ISG|DSE|X<>|ASTO|ARCL)\s*\"(.*)\"", re.I)
TEXT_AFTER = re.compile(r"(PROMPT|AVIEW|PSE|STOP|ALPHA)\s*\"(.*)\"", re.I)

# Numbers of module functions.
MODULE = re.compile(r"XROM\b\s*(.*)", re.I)
TWO_NUMBERS = re.compile(r"([0-9]+)\s*([,/:.]?)\s*([0-9]+)(.*)")
LAST_MODULE, LAST_FUNCTION = 31, 63

# Texts with other signs around them.
AROUND = [(r"`+([^`']*)[`']+", "backquotes are not quotes"), (r"[«»‹›](.*)[«»‹›]", "these signs are not quotes"),
          (r"\^T\s*([^\"]+)", "^T is the raised T of a printed text"), (r"T\"(.*)\"", "T is the raised T of a printed text"),
          (r"ALPHA\s+(.+?)\s+ALPHA", "a text is a line of its own")]
APPENDED = [(r"[+&]\s*\"(.*)\"", "a text is appended to ALPHA by > before it"),
            (r"\"(.*)\"\s*\+", "a text is appended to ALPHA by > before it")]

# Lines that are none: comments, rules, and the columns of other listings.
COMMENT = re.compile(r"(?:--|/\*|REM\b|[%!*]\s+(?=[A-Za-z]))\s*.*", re.I)
RULE = re.compile(r"[-=*_~.]{3,}")
KEY_CODES = re.compile(r"[0-9]{2,3}-\s*[0-9]{2}.*|(?:[0-9]{2,3}\s+)?[0-9]{2}(?:[, ]\s?[0-9]{2}){0,2}\s+[A-Za-z].*")
PAGE = re.compile(r"(?:PAGE|STEP|LINE)\s+[0-9]+.*", re.I)

# Words that other languages have for steps.
COMPARED = re.compile(r"([XY])\s*(<=|>=|==|=!|!=|=<|=>|=|#|<|>|≤|≥|≠)\s*([XY]|-?[0-9.]+)\s*\??", re.I)

SIGNS = {"==": "=", "!=": "#", "=!": "#", "=<": "<=", "≤": "<=", "≠": "#"}

# The most words of a line that may have several steps, and the fewest letters of a mistyped name without an operand.
MOST_WORDS, FEWEST_LETTERS = 6, 4


def causes(text: str, speller: Speller) -> Iterator[Cause]:
    """Yields the causes of a line in plain signs, the likeliest first."""
    for form in (of_other_calculators, of_modules, of_module_numbers, of_operands, of_comparisons, of_several_steps, of_no_line,
                 of_mistyped):
        yield from form(text, speller)


def read(text: str, speller: Speller) -> List[str]:
    """Returns the texts that a line may be read as."""
    return [found for found, _ in speller.spellings(text) or []]


# Tables.

@functools.lru_cache(None)
def other_calculators() -> Dict[str, Tuple[str, str]]:
    """Returns the functions of other calculators: for each name in capitals the calculator, and what to write here."""
    rows = tables_of(section_of(DOCUMENT, "Functions of other calculators"))[0]
    return {name.upper(): (calculator, here.replace("`", "")) for names, calculator, here in rows for name in codes_of(names)}


@functools.lru_cache(None)
def own_functions() -> List[str]:
    """Returns the names of the calculator's functions, from the table of bytes."""
    rows = [line.split() for line in section_of(DOCUMENT, "Functions").split("\n") if line.startswith("    ")]
    return [*(name for row in rows[1:] for name in row[1:]), "GTO", "XEQ", "LBL", "END", "X<>", "SF", "CF", "FS?", "FC?", "FS?C", "FC?C",
            "XROM"]


def of_other_calculators(text: str, speller: Speller) -> Iterator[Cause]:
    """Yields that a line is a function of another calculator, alone or with an operand."""
    table, name = other_calculators(), re.sub(r"\s+", " ", text.upper())
    first = re.split('[ "]', name)[0]
    known = name if name in table else f"{first} _" if name != first and f"{first} _" in table else None
    if known:
        calculator, here = table[known]
        yield (), f"a function of {calculator}, not of the HP-41{f': {here}' if here else ''}"


def of_modules(text: str, speller: Speller) -> Iterator[Cause]:
    """Yields that a line is a function of a module, by its name, whose number is not known here."""
    module = speller.functions.without_number(speller.tables.key(text)) if speller.functions else None
    if module:
        number = re.sub(r".*XROM ([0-9]{2}).*", r"\1", module)
        yield (), (f"a function of the module {module}; its number there is not known here: give the module's image too, or write "
                   f"XROM {number},jj with its number jj")


# Numbers.

def of_numbers(text: str, speller: Speller) -> Iterator[Cause]:
    """Yields how to write a number."""
    for pattern, proposal, reason in NUMBERS:
        found = re.fullmatch(pattern, text)
        if not found or "{zeros}" in proposal and not re.search("[Oo]", text):
            continue
        parts = [part or "" for part in found.groups()]
        first = parts[0] if parts else ""
        words = {"text": "", "raised": first.translate(RAISED), "digits": re.sub("[^0-9]", "", first),
                 "decimal": str(int(first, 16)) if "decimal" in proposal else "", "zeros": re.sub("[Oo]", "0", first)}
        words["text"] = proposal.format(*parts, **words)
        yield (words["text"],) if words["text"] else (), reason.format(*parts, **words)
    for sign, written in PARTS_OF_ONE.items():
        whole = re.fullmatch(rf"(-?[0-9]*){sign}", text)
        if whole:
            yield (f"{whole[1]}{written}",), f"{sign} is no digit: write {whole[1]}{written}"


def of_module_numbers(text: str, _speller: Speller) -> Iterator[Cause]:
    """Yields what is wrong with the numbers after XROM."""
    found = MODULE.fullmatch(text)
    if not found:
        return
    numbers = TWO_NUMBERS.fullmatch(found[1])
    if not found[1]:
        yield (), "the numbers of the module and of the function are missing: write for example XROM 05,01"
    elif not numbers or numbers[1] and not numbers[2] and not re.search(r"\s", found[1]):
        yield (), f"found `{found[1]}` after XROM, expected the numbers of the module and of the function, for example XROM 05,01"
    elif not 1 <= int(numbers[1]) <= LAST_MODULE:
        yield (), f"found the module {numbers[1]}, expected 01 to {LAST_MODULE}"
    elif int(numbers[3]) > LAST_FUNCTION:
        yield (), f"found the function {numbers[3]}, expected 00 to {LAST_FUNCTION}"
    else:
        line = f"XROM {int(numbers[1]):02},{int(numbers[3]):02}"
        yield (line,), f"write {'nothing after the numbers' if numbers[4] else 'a comma between the numbers'}: {line}"


# Texts and operands.

def of_texts(text: str, speller: Speller) -> Iterator[Cause]:
    """Yields that a text has other signs around it."""
    for pattern, reason in AROUND:
        found = re.fullmatch(pattern, text, re.I)
        if found:
            line = f'"{speller.characters(found[1])}"'
            yield (line,), f"{reason}: write {line} for a text"
    for pattern, reason in APPENDED:
        found = re.fullmatch(pattern, text)
        if found:
            line = f'>"{speller.characters(found[1])}"'
            yield (line,), f"{reason}: write {line}"
    after = TEXT_AFTER.fullmatch(text)
    if after:
        line = f'"{speller.characters(after[2])}"'
        yield (line,), f"{after[1].upper()} has no text: write {line} on a line" + (" of its own" if after[1].upper() == "ALPHA" else
                                                                                 f" before {after[1].upper()}")


def of_operands(text: str, speller: Speller) -> Iterator[Cause]:
    """Yields what is wrong with an operand."""
    touching = TOUCHING_LETTER.fullmatch(text)
    if touching:
        line = f"{speller.tables.name(touching[1])} {'IND ' if touching[2] else ''}{touching[3].upper()}"
        yield (line,), f"write a space before the operand: {line}"
    pointed = AFTER_POINT.fullmatch(text)
    if pointed:
        line = f"{speller.tables.name(pointed[1])} {int(pointed[2]):02}"
        yield (line,), f"write a space and no point before the operand: {line}"
    variable = VARIABLE.fullmatch(text)
    if variable:
        name = speller.tables.name(variable[1])
        yield (f"{name} 05",), f"the HP-41 has no variables with names, as the HP-42S has: write the number of a register, {name} 05"
    alone, twice, two = INDIRECT.fullmatch(text), TWICE.fullmatch(text), TWO_OPERANDS.fullmatch(text)
    if alone:
        name = speller.tables.name(alone[1])
        yield (f"{name} IND 05",), f"the register after IND is missing: write for example {name} IND 05"
    if twice:
        name = speller.tables.name(twice[1])
        yield (f"{name} IND 05",), f"found IND twice, expected it once: write {name} IND and a register"
    for line in read(two[1], speller) if two else []:
        yield (line,), f"found two operands, expected one: write {line}"
    found = WITH_OPERAND.fullmatch(text)
    if found:
        yield from of_one_operand(speller.tables.name(found[1].removesuffix(" IND").removesuffix(" ind")), found[2], speller,
                                  "IND " if re.search(r" IND\Z", found[1], re.I) else "")


def operands_of(name: str, indirect: str) -> str:
    """Returns the numbers that keys can type after a function."""
    return "00 to 99" if indirect else "0 to 9" if name in OF_ONE_DIGIT else "00 to 55" if name in OF_FLAGS else "00 to 99"


def of_one_operand(name: str, operand: str, speller: Speller, indirect: str) -> Iterator[Cause]:
    """Yields what is wrong with the operand of a function, if the function has one."""
    fits, begin = (f"{name} {indirect}00",), f"{name} {indirect}"
    bare = re.fullmatch(r"[\[({<]*([0-9]{1,3})[\])}>]*", operand)
    named = re.fullmatch(r"[Rr]([0-9]{1,2})", operand)
    confused = operand.translate(CONFUSED)
    if named:
        line = f"{begin}{int(named[1]):02}"
        yield (line,), f"a register is its number alone, without R: write {line}"
    elif bare and bare[1] != operand:
        line = f"{begin}{int(bare[1]):02}"
        yield (line,), f"the operand has no brackets: write {line}"
    elif confused.isdecimal() and not operand.isdecimal() and len(operand) <= 2 and re.search("[0-9]|OO", operand):
        line = f"{begin}{int(confused):02}"
        yield (line,), f"found a letter in the operand, expected digits: write {line}"
    elif re.fullmatch(r"[-+][0-9]+", operand):
        yield fits, f"{operand} is not a valid operand here: expected {operands_of(name, indirect)}, without a sign"
    elif re.fullmatch(r"[0-9]*\.[0-9]*", operand) and re.search("[0-9]", operand):
        yield fits, f"{operand} is not a valid operand here: expected {operands_of(name, indirect)}, without a point"
    elif re.fullmatch(r"[0-9]+", operand):
        wanted = operands_of(name, indirect)
        more = ", or up to 101 in synthetic lines" if int(operand) > 101 and wanted == "00 to 99" else ""
        yield fits, f"{operand} is not a valid operand here: expected {wanted}{more}"
    stack = re.fullmatch(r"ST([XYZTL])", operand, re.I)
    if stack:
        yield (f"{begin}{stack[1].upper()}",), f"{operand} is not a valid operand here: write {begin}{stack[1].upper()}"


def of_comparisons(text: str, _speller: Speller) -> Iterator[Cause]:
    """Yields what a test can compare."""
    found = COMPARED.fullmatch(text)
    if not found:
        return
    left, sign, right = found[1].upper(), found[2], found[3].upper()
    if left == "X" and sign in (">=", "=>", "≥"):
        there = "an HP-42S has it" if right in ("Y", "0") else "no HP-41 compares X with this number"
        yield (), f"the HP-41 has no test X>={right}, {there}: write X<{right}? and exchange the lines for yes and no"
    elif left == "Y":
        yield (), "a test of the HP-41 begins with X: write it for X and Y exchanged"
    elif right in ("Y", "0"):
        line = f"X{SIGNS.get(sign, sign)}{right}?"
        yield (line,), f"write {line}"
    else:
        yield (), f"a test compares X with Y or with 0: write {right} and a test of X and Y on two lines"


# Lines that are none.

def of_no_line(text: str, speller: Speller) -> Iterator[Cause]:
    """Yields that a line is a comment, a rule, or a column of another listing."""
    if RULE.fullmatch(text):
        yield (), "a rule of signs is no program line: begin it with ;"
    elif KEY_CODES.fullmatch(text):
        yield (), "codes of keys, as other calculators list them, are not read: write the function alone"
    elif COMMENT.fullmatch(text) and len(text.split()) > 1:
        yield (), "this is no comment here: begin a comment with ;, # or //"
    elif PAGE.fullmatch(text):
        yield (), "the head of a page or step is no program line: begin it with ;"
    elif re.fullmatch(r"(?:[A-Za-z]+[,.]? )+[A-Za-z]+[.!?]?", text) and text.split()[0].upper() not in own_functions():
        yield (), "words that are no function: begin a comment with ;, and write a text in quotes"


def several(text: str, speller: Speller) -> List[Tuple[str, ...]]:
    """Returns the ways to separate a line into several lines, those of fewest lines first."""
    words = [word for word in re.split(r"[\s,;:|]+", text) if word]
    if not 2 <= len(words) <= MOST_WORDS:
        return []
    found = []
    for count in range(1, len(words)):
        for cuts in combinations(range(1, len(words)), count):
            parts = [" ".join(words[begin:end]) for begin, end in zip((0, *cuts), (*cuts, len(words)))]
            if all(re.match(r"[^0-9]", part) for part in parts[1:]) or len(parts) > 2:
                found.append(tuple(parts))
    return found


def of_several_steps(text: str, speller: Speller) -> Iterator[Cause]:
    """Yields that a line has several steps."""
    if '"' in text or KEY_CODES.fullmatch(text):
        return
    for parts in several(text, speller):
        texts = [(read(part, speller) or [part])[1:2] or [part] for part in parts]
        written = ", ".join(one[0] for one in texts)
        yield tuple(one[0] for one in texts), f"{len(parts)} steps on one line: write {written} on lines of their own"


def of_mistyped(text: str, speller: Speller) -> Iterator[Cause]:
    """Yields functions whose name is nearly that of the line."""
    if not re.search("[^\\W_]", text):
        yield (), "signs alone, which are no function"
    name, blank, operand = text.partition(" ")
    name, own = speller.tables.key(name), own_functions()
    if name in own or len(name) < FEWEST_LETTERS - bool(operand):
        return
    for other in [*own, *speller.tables.names]:
        if len(other) > 2 and is_near(name, other):
            line = f"{speller.tables.names.get(other, other)}{blank}{operand}"
            yield from (((found,), f"no function is named {name}: write {found}") for found in read(line, speller))


def is_near(one: str, other: str) -> bool:
    """Returns whether two names differ in one letter, in one letter too many, or in two letters that are exchanged."""
    if one == other or abs(len(one) - len(other)) > 1:
        return False
    at = next((at for at, (left, right) in enumerate(zip(one, other)) if left != right), min(len(one), len(other)))
    rest, tail = one[at:], other[at:]
    return rest[1:] == tail[1:] or rest[1:] == tail or rest == tail[1:] or rest[:2] == tail[:2][::-1] and rest[2:] == tail[2:]
