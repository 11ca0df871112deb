"""Causes of source lines of other assemblers that tools/import does not translate: directives, arrows, conditions in words, octal numbers,
characters, offsets of labels, words for peripherals. Each cause says what is written here. Only errors need this module."""
from __future__ import annotations

import re
from collections.abc import Iterator

from .dialects import GREATEST_WORD, REGISTERS
from .operand_causes import above

# Directives of other assemblers, and what is done here. A name may be before them.
DIRECTIVES = {
    r"\.?EQU|\.?EQUS|ALIAS|DEFINE|SYMBOL|EQUATE|DEFC|\.DEFINE|#define|\.SET|SET|\.DEF":
        "a source defines no names for numbers: a project of tools/module does, in [equates]",
    r"\.(?:BYTE|WORD|DB|DW|DCB|DCW|DATA|CONST|LONG|HWORD|INT)": "words are written CON 005, one in each line",
    r"\.?BSS|\.?DS|\.SPACE|\.BLOCK": "no directive reserves words: write a line CON 000 for each word",
    r"\.?FILL(?:TO)?|\.ALIGN|ALIGN": "a source does not fill its page: a description does, FILE.page, with `fill` and `at`",
    r"\.?ORG|\*=": "a source has no origin: --page, `asm P` or a project gives the page, and `at` of a FILE.page a place in it",
    r"[.#]?INCLUDE|#include|COPY|\.INSERT": "a source includes no other file: name several sources, or write a project of tools/module",
    r"[.#]?MACRO|\.?ENDM|%macro": "there are no macros: write the lines themselves, or a subroutine",
    r"[.#](?:IF|IFDEF|IFNDEF|ELSE|ENDIF)\w*|IFDEF|IFNDEF|ENDIF": "there is no conditional assembly: remove the lines that do not apply",
    r"\.?BANK": "a source names no bank: --bank, `asm P bN` or a project gives it",
    r"\.?(?:EXTERN\w*|EXTRN|XDEF|XREF|GLOBAL|PUBLIC|IMPORT|EXPORT)":
        "labels of other sources need no declaration: a project of tools/module has all of them",
    r"\.(?:ARCH|CPU|FILE|MODULE|PAGE|SECTION|CODE|DATA|NOLIST)|\.?SYMTAB|FILE|\.?SUBTITLE|\.?TITLE":
        "this directive gives no word: remove it",
    r"\.?(?:CHECKSUM|CHKSUM|ROMCHECK|CHK)": "a description of the page's end computes it, FILE.page, with `checksum`",
    r"\.?(?:TEXT|STRING|ASCII|ASCIZ|STR)": 'a name of a function is NAME "KIT"; other characters are CON lines',
}
DIRECTIVE = re.compile(r"(?:[A-Za-z_]\w*:?\s+)?(" + "|".join(DIRECTIVES) + r")(?=\s|\Z)", re.I)
# A name for a number without a directive.
ASSIGNED = re.compile(r"([A-Za-z]\w*)\s*=\s*(?:0x|\$)?[0-9][0-9A-F]*H?", re.I)

# Words for peripherals and for the registers of the display.
PERIPHERAL = re.compile(r"HPL=\w+|\?(?:FI|PF|LPB|FLG|PBSY|WNDB|ALM|EDAV|IFCR|SRQR|FRAV|FRNS|ORAV)\b=?|PERTCT|SELPF?\b|PRPH=\w+|"
                        r"SNDM\w*", re.I)
DISPLAY = re.compile(r"(?:SRL|SLL|SRS|SLS|FLL|FRL|FLS|FRS)D?[ABC]{1,3}|RABC[LR]|WRI?TEN|READEN|DSPON", re.I)

# Lines in which the operation is written in another form: a pattern, and what is written here. `{F}` is a field by its name here.
FIELD = r"\s*[\[( ]\s*(?P<f>\w+)\s*[\])]?"
FORMS = [
    (rf"(?P<s>[abc0])\s*->\s*(?P<d>[abc]){FIELD}", "{d}={s} {f}"),
    (rf"(?P<x>[abc])\s*(?P<o>[-+])\s*(?P<y>[abc1])\s*->\s*(?P<d>[abc]){FIELD}", "{d}={x}{o}{y} {f}"),
    (rf"(?:-|0\s*-)\s*c\s*->\s*c{FIELD}", "C=0-C {f}"),
    (rf"-\s*c\s*-\s*1\s*->\s*c{FIELD}", "C=-C-1 {f}"),
    (rf"(?P<x>[abc])\s+exchange\s+(?P<y>[abc]){FIELD}", "{x}<>{y} {f}"),
    (rf"shift\s+(?P<way>left|right)\s+(?P<x>[abc]){FIELD}", "{way}SHF{x} {f}"),
    (r"(?P<n>[01])\s*->\s*s\s*(?P<b>\d+)", "{n}F {b}"),
    (r"(?P<n>\d+)\s*->\s*p|p\s*<-\s*(?P<n2>\d+)", "R= {n}{n2}"),
    (r"(?P<o>[abc](?:=|<>)[^\[\s]+)\s*\[(?P<f>\w+)\]", "{o} {f}"),
    (r"p\s*\+\s*1\s*->\s*p", "R=R+1"),
    (r"p\s*-\s*1\s*->\s*p", "R=R-1"),
    (r"(?:load\s+constant|lc|ldc)[ (]+(?P<n>1[0-5]|[0-9])\)?", "LD@R {n}"),
    (r"(?P<x>[abc])(?P<y>[abc])ex\s+(?P<f>\w+)", "{x}<>{y} {f}"),
    (r"(?:if\s+n(?:o\s*)?c(?:arry)?\s+)?go\s*to\s+:?(?P<l>\w+)", "JNC :{l}"),
    (r"(?:then\s+)?go\s*to\s+:?(?P<l>\w+)", "JNC :{l}"),
    (r"if\s+c(?:arry)?\s+go\s*to\s+:?(?P<l>\w+)", "JC :{l}"),
    (r"(?:n?c?xq|jsb|gosub|call|xeq)\s+:?(?P<l>(?![0-9A-F]{4}\Z)[a-z]\w*)", "?NC XQ :{l}"),
    (r"(?P<r>[mn])\s+exchange\s+c", "C<>{r}"),
    (r"goyes\s+:?(?P<l>[a-z]\w*)", "JC :{l}, after a test"),
    (r"clear\s+registers", "CLRABC"), (r"clear\s+status", "ST=0"), (r"c\s*->\s*data\s+address", "RAM SLCT"),
    (r"no\s+operation", "NOP"), (r"display\s+off", "DISOFF"), (r"display\s+toggle", "DISTOG"), (r"keys\s*->\s*rom\s+address", "GOTO KEY"),
    (r"(?P<r>[mn])[12]?\s+exchange\s+c", "C<>{r}"), (r"c\s*->\s*addr(?:ess)?", "RAM SLCT"),
    (r"c\s*->\s*data\s+register\s*(?P<n>\d+)", "WRIT {n}"), (r"data\s+register\s*(?P<n>\d+)\s*->\s*c", "READ {n}"),
    (r"(?P<r>[mn])[12]?\s*->\s*c", "C={r}"), (r"c\s*->\s*(?P<r>[mn])[12]?", "{r}=C"),
    (r"(?:delayed|select)\s+rom\s+\d+", "?NC GO or ?NC XQ and a label of the other page"),
    (r"rom\s+address\s*->\s*c|c\s*->\s*rom\s+address", "FETCH S&X"),
    (r"data\s*->\s*c", "READ DATA"), (r"c\s*->\s*data", "WRIT DATA"), (r"(?:return|ret)", "RTN"),
    (r"if\s+s\s*(?P<b>\d+)\s*(?:=|#|<>)\s*[01]", "?FSET {b}, and JC or JNC after it"),
    (r"if\s+p\s*(?:=|#|<>)\s*(?P<n>\d+)", "?R= {n}, and JC or JNC after it"),
    (rf"if\s+(?P<x>[abc])\s*{FIELD}\s*(?:=|#|<>)\s*0", "?{x}#0 {f}, and JC or JNC after it"),
    (rf"if\s+a\s*{FIELD}\s*(?:>=|<)\s*(?P<y>[bc])\b.*", "?A<{y} {f}, and JC or JNC after it"),
]
FIELDS = {"P": "@R", "PT": "@R", "X": "S&X", "WP": "R<", "WPT": "R<", "W": "ALL", "PQ": "P-Q", "XS": "XS", "M": "M", "S": "MS", "MS": "MS"}

OCTAL = re.compile(r"(?:LDI|CON|LDI\s+S&X)\s+(@([0-7]+)|([0-7]+)[OoQq](?!\w)|0o([0-7]+))")
BINARY = re.compile(r"(?:LDI|CON|LDI\s+S&X)\s+((?:%|0b)([01]+)|([01]{5,})B)", re.I)
CHARACTER = re.compile(r"""(?:LDI|CON|LDI\s+S&X)\s+(["']([ -~])["']?|["'][^"']*["']?)""")
OFFSET = re.compile(r"(?:\S+:?\s+)*?(?:\?\s?N?C\s?(?:XQ|GO)|JN?C|GO\w+|GSUB\w*|GOL\w+)\s+(:?\[?[A-Za-z]\w*\]?\s*[-+]\s*\w+)", re.I)
HERE = re.compile(r"(?:\S+:?\s+)*?(JN?C|GON?C|GOTO)\s+([$.]\s*([-+])\s*([0-9A-F]{1,2}))", re.I)
OF_A_PAGE = re.compile(r"(?:\?N?C\s+(?:XQ|GO)|ENTRY|FOCAL)\s+:?([A-Za-z]\w*)[:/!]([A-Za-z]\w*)")
OF_A_FLAG = re.compile(r"(FS\?C?|FC\?C?|SF|CF)\s*([0-9]+)", re.I)
LOWER_NAME = re.compile(r'\.?NAME\s+"[^"a-z]*([a-z])[^"]*"')
NO_NUMBER = re.compile(r"(?:LDI|CON)\s+([0-9A-Za-z]+)")
TOO_GREAT = re.compile(r"(?:LDI|CON)\s+((?:0x|\$)?0*([0-9A-F]{3,})H?)", re.I)
NO_DIGIT = re.compile(r"(?:LC|LD@R)\s+([0-9]+)")
NO_DIRECTIVE = re.compile(r"[.#%][A-Za-z]\w*")
EQUATE = re.compile(r"(?:READ|WRIT|R=|\?R=|RCR|LD@R|SETF|CLRF|\?FSET)\s+(:([A-Za-z]\w*))")
NAMED_BIT = re.compile(r"(CLRF|SETF|\?FSET)\s+([SF]([0-9]|1[0-3]))")
NO_BIT = re.compile(r"\??S(1[4-9]|[2-9][0-9]|[0-9]{3,})\s*=\s*[01]")
REGISTER = re.compile(r"(C=REGN|REGN=C)\s+([TZYXLMNOPQabcde+])")
LEFT = re.compile(r"RCR\s+(-\s*([0-9]+))", re.I)
REFERENCE = re.compile(r"(?:\?N?C\s+(?:XQ|GO)|ENTRY|FOCAL)\s+([A-Za-z]\w*)")
NUMBERED = re.compile(r"(?:\?N?C\s+(?:XQ|GO))\s+(0x[0-9A-F]{1,4}|\$[0-9A-F]{1,4}|[0-9A-F]{1,4}H)", re.I)


def in_own_form(code: str) -> str:
    """Returns a line in another form as it is written here; an empty text if it has none of the forms."""
    for pattern, here in FORMS:
        found = re.fullmatch(pattern, code.strip(), re.I)
        if not found:
            continue
        parts = {name: part.upper() if name != "l" else part for name, part in found.groupdict(default="").items()}
        parts["f"] = FIELDS.get(parts.get("f", ""), parts.get("f", ""))
        return here.format(**parts).replace("LEFTSHF", "LSHF").replace("RIGHTSHF", "RSHF").replace("1F ", "SETF ").replace("0F ", "CLRF ")
    return ""


def causes(code: str) -> Iterator[tuple[int, str]]:
    """Yields the offset of the text that is meant, and the cause, the likeliest first."""
    directive, assigned = DIRECTIVE.match(code), ASSIGNED.fullmatch(code)
    if directive:
        yield directive.start(1), next(why for names, why in DIRECTIVES.items() if re.fullmatch(names, directive[1], re.I))
    if assigned and not re.fullmatch(r"R|P|Q|PT|[ABCMNG]|C?ST|S\d+|CY|CARRY|CF|PC", assigned[1], re.I):
        yield 0, DIRECTIVES[next(iter(DIRECTIVES))]
    if PERIPHERAL.match(code) or DISPLAY.match(code):
        yield 0, f"a word for {'peripherals' if PERIPHERAL.match(code) else 'the display'} has no mnemonic here: write CON and the word"
    own = in_own_form(code)
    if own:
        yield 0, f"this form of another assembler is written {own}"
    yield from of_numbers(code)
    if re.match(r"if\s", code, re.I):
        yield 0, "a condition is a test and then a jump, for example ?A<C S&X and JC :LOOP"
    if "->" in code and not re.match(r"\S*\?", code):
        yield 0, "there are no arrows: the result is written first, for example C=0 ALL"
    unknown = NO_DIRECTIVE.match(code)
    if unknown:
        yield 0, f"no directive is named {unknown[0]}: expected CON, NAME, ENTRY or FOCAL; remove the line if it gives no word"


def of_names(code: str) -> Iterator[tuple[int, str]]:
    """Yields what is wrong with a name of a page, a flag or a function."""
    page, flag, lower = OF_A_PAGE.fullmatch(code), OF_A_FLAG.fullmatch(code), LOWER_NAME.match(code)
    if page:
        yield page.start(1), f"the page and the label have a point between them: write :{page[1]}.{page[2]}"
    if flag:
        here = {"SF": "SETF", "CF": "CLRF"}.get(flag[1].upper(), "?FSET")
        number = int(flag[2])
        bit = f", {here} {number}" if number <= 13 else f"; flag {number} of programs is in register d: READ 14"
        yield 0, f"{flag[1]} is a function of programs: an instruction has the status bits 0 to 13{bit}"
    if re.fullmatch(r'"[^"]*"', code):
        yield 0, "a text alone is no line: it is the operand of NAME, which has no colon after it"
    if re.match(r"\.?(?:NAME|CON|ENTRY|FOCAL):\s", code):
        yield code.index(":"), "a directive has no colon after it: remove it"
    if lower:
        yield lower.start(1), f"found {lower[1]}: a name must have no lower-case letters"
    reverse = re.fullmatch(r"([ABC])([-+])([ABC1])=([ABC])(\s+\S+)?", code)
    if reverse:
        yield 0, f"the result is before the sign =: write {reverse[4]}={reverse[1]}{reverse[2]}{reverse[3]}{reverse[5] or ''}"


def of_numbers(code: str) -> Iterator[tuple[int, str]]:
    """Yields what is wrong with the number or the reference of a line."""
    number, digit = NO_NUMBER.fullmatch(code), NO_DIGIT.fullmatch(code)
    octal, binary, character = OCTAL.search(code), BINARY.search(code), CHARACTER.search(code)
    if octal:
        yield octal.start(1), f"{octal[1]} is an octal number: write it in hexadecimal, {int(octal[2] or octal[3] or octal[4], 8):03X}"
    if binary:
        yield binary.start(1), f"{binary[1]} is a binary number: write it in hexadecimal, {int(binary[2] or binary[3], 2):03X}"
    if character:
        code_of = f", for example {ord(character[2]):03X}, the ASCII code of {character[2]}" if character[2] else ""
        yield character.start(1), f"a character is written as its code, three hexadecimal digits{code_of}"
    elif number and re.search("[G-Zg-z]", number[1]) and not binary and not octal and not re.fullmatch("0x.*|.*[Hh]", number[1]):
        yield number.start(1), f"{number[1]} is not a hexadecimal number: expected three digits, 000 to 3FF"
    great = TOO_GREAT.fullmatch(code)
    if great and int(great[2], 16) > GREATEST_WORD:
        yield great.start(1), above(great[1])
    if digit and re.fullmatch("0[0-9]", digit[1]):
        yield digit.start(1), f"{digit[1]} has a leading zero: write LD@R {int(digit[1])}"
    elif digit and int(digit[1]) > 15:
        yield digit.start(1), f"{digit[1]} is not a digit: LD@R takes 0 to 15"
    yield from of_operands(code)
    yield from of_names(code)
    reference, numbered = REFERENCE.fullmatch(code), NUMBERED.fullmatch(code)
    if reference and not re.fullmatch("[0-9A-F]+", reference[1]):
        yield reference.start(1), f"a reference begins with a colon: write :{reference[1]}"
    if numbered:
        digits = re.sub(r"^0x|\$|H$", "", numbered[1], flags=re.I)
        yield numbered.start(1), f"an address is four hexadecimal digits alone: write {digits.upper():0>4}"


def of_operands(code: str) -> Iterator[tuple[int, str]]:
    """Yields what is wrong with the target of a jump, a rotation, a status bit, a register, or an equate."""
    here, offset, left = HERE.match(code), OFFSET.match(code), LEFT.match(code)
    if here:
        yield here.start(2), f"the address of this line has no sign: write the displacement alone, {here[3]}{here[4]:0>2}"
    if offset:
        yield offset.start(1), "a reference has no offset: write a label before the line that is meant"
    if left and 1 <= int(left[2]) <= 13:
        yield left.start(1), f"RCR rotates to the right: a rotation to the left by {left[2]} is RCR {14 - int(left[2])}"
    named, beyond, register = NAMED_BIT.fullmatch(code), NO_BIT.fullmatch(code), REGISTER.fullmatch(code)
    if named:
        yield named.start(2), f"a status bit is its number alone: write {named[1]} {named[3]}"
    if beyond:
        yield beyond.start(1), f"the status bits are 0 to 13, found {beyond[1]}"
    if register:
        place = REGISTERS.index(register[2])
        own = f"WRIT {place}" if register[1] == "REGN=C" else f"READ {place or 'DATA'}"
        yield register.start(2), f"{register[2]} is register {place}: write {own}"
    equate = EQUATE.fullmatch(code)
    if equate:
        yield equate.start(1), f"{equate[1]} is a label or an equate, expected a number: only a project of tools/module has equates"
