"""Causes of source lines that have no instruction of this assembler: labels that are written otherwise, comments without `;`, instructions
in lower case or without a space, those of other processors, and statements of other languages. Only errors need this module."""
from __future__ import annotations

import re
from collections.abc import Callable, Iterable
from os.path import commonprefix

from .arithmetic import OF_ONE, OF_TWO, in_words, meant, own_way
from .dialects import FIELDS, LONG
from .operand_causes import LETTERS

Words = list[tuple[int, str]]
Cause = tuple[int, str]

NAME = r"[A-Za-z]\w{0,11}"
COMMENT = re.compile(r"(?://|--|/\*|#|'|!|\*|%|\{(?=\s*\w)|REM\b|\(\*|\\|@@|=+\s|-+\Z)")

# Instructions of other processors, and what does the same here.
ELSEWHERE = {
    "CALL": "?NC XQ", "JSR": "?NC XQ", "BSR": "?NC XQ", "XEQ": "?NC XQ", "BL": "?NC XQ", "JAL": "?NC XQ", "ACALL": "?NC XQ",
    "LCALL": "?NC XQ", "JMP": "?NC GO", "BRA": "?NC GO", "GO": "?NC GO", "B": "?NC GO", "J": "?NC GO", "JP": "?NC GO", "JUMP": "?NC GO",
    "LJMP": "?NC GO", "AJMP": "?NC GO", "SJMP": "JNC", "BR": "?NC GO", "JR": "JNC", "RET": "RTN", "RTS": "RTN", "RETURN": "RTN",
    "RETI": "RTN", "RTI": "RTN", "IRET": "RTN", "EXIT": "RTN", "BX": "RTN", "JZ": "JNC after ?C#0", "JNZ": "JC after ?C#0",
    "BEQ": "JNC after ?C#0", "BNE": "JC after ?C#0", "JE": "JNC after a test such as ?A#C", "JNE": "JC after a test such as ?A#C",
    "BCC": "JNC", "BCS": "JC", "JNB": "JNC", "BLT": "JC after ?A<C", "BGE": "JNC after ?A<C", "JL": "JC after ?A<C",
    "JGE": "JNC after ?A<C", "JB": "JC after ?A<C", "JG": "JC after ?A<C with the operands exchanged",
    "BGT": "JC after ?A<C with the operands exchanged", "BLE": "JNC after ?A<C with the operands exchanged",
    "JLE": "JNC after ?A<C with the operands exchanged", "BMI": "JC after ?C#0 MS", "BPL": "JNC after ?C#0 MS", "JNC": "JNC",
    "DJNZ": "C=C-1 S&X, ?C#0 S&X and JC, or R=R-1 and ?R= 13", "CBZ": "?C#0 and JNC", "CBNZ": "?C#0 and JC", "SKZ": "?C#0 and JNC",
    "DB": "CON", "DW": "CON", "BYTE": "CON", "WORD": "CON", ".BYTE": "CON", ".WORD": "CON", ".DB": "CON", ".DW": "CON", "FCB": "CON",
    "FDB": "CON", "DEFB": "CON", "DEFW": "CON", "DATA": "CON", ".DATA": "CON", "DCB": "CON", "DCW": "CON", "CONST": "CON", ".CONST": "CON",
    "DEC": "SETDEC", "SED": "SETDEC", "HEX": "SETHEX", "CLD": "SETHEX", "CLC": "NOP, which clears the carry",
    **dict.fromkeys(("SEC", "STC"), "a test that is true, because no instruction only sets the carry"),
    "PUSH": "PUSH ADR for a return address, or M=C and N=C for a value", "POP": "POP ADR for a return address, or C=M and C=N for a value",
    "HALT": "RTN", "HLT": "RTN", "STOP": "RTN", "BRK": "RTN", "CLR": "C=0", "PASS": "NOP", "NOOP": "NOP",
    **dict.fromkeys(("XOR", "EOR"), "one of C=C AND A and C=C OR A, because there is no exclusive or"), "AND": "C=C AND A",
    "OR": "C=C OR A", "ORR": "C=C OR A", "ANA": "C=C AND A", "ORA": "C=C OR A",
    "MUL": "a loop with C=A+C, because the processor only adds and subtracts",
    "DIV": "a loop with C=A-C, because the processor only adds and subtracts",
    **dict.fromkeys(("SHL", "ASL", "LSL", "SAL"), "LSHFA, which shifts A by a digit, or C=C+C, which doubles C"),
    **dict.fromkeys(("SHR", "LSR", "ASR"), "RSHFA, RSHFB or RSHFC, which shifts by a digit"),
    "ROL": "RCR 13, which rotates C to the left by a digit", "ROR": "RCR 1, which rotates C to the right by a digit",
    "RLC": "RCR 13, which rotates C to the left by a digit", "RRC": "RCR 1, which rotates C to the right by a digit",
    **dict.fromkeys(("INT", "SWI", "SYSCALL"), "?NC XQ, which calls a subroutine"), "LDR": "READ", "STR": "WRIT", "LDX": "READ",
    "STX": "WRIT", "IN": "C=KEY for a key, or READ", "OUT": "WRIT, for a register of memory",
    **dict.fromkeys(("PRINT", "ECHO"), "WRIT 3, after which the calculator shows X"), "BIT": "?FSET for a status bit",
    "BTST": "?FSET for a status bit", "SETB": "SETF", "BSET": "SETF", "BCLR": "CLRF",
}
PRINTED = {"PRINT", "ECHO", "EXIT", "PASS"}

# Statements of other languages, and how they are written here.
STATEMENTS = [
    (r"(?:if|elif|else\s+if|unless|when|switch|case)\b.*", "a condition is a test and then a jump, for example ?A<C S&X and JC :LOOP"),
    (r"(?:else|endif|end\s?if|fi|then)\b.*", "there are no blocks: a test and a jump such as JC :ELSE skip instructions"),
    (r"(?:times|dup|\.?rept|\.?rpt)\s+([0-9]+)\s+([^\s,].*)", "nothing repeats a line: write {1} {0} times, each in a line of its own"),
    (r"(?:times|dup|\.?rept|\.?rpt|\.?endr)\b.*", "nothing repeats a line: write it as often as it is needed"),
    (r"(?:while|until|repeat|do|wend|end\s?while|for|next|foreach)\b.*",
     "there are no loops: a label before the first instruction, and a test and a jump back at the end"),
    (r"(?:def|sub|function|func|proc|procedure|void|fn)\s+(\w+).*", "a subroutine begins with its label and ends with RTN: write {0}:"),
    (r"(?:end\s?(?:sub|proc|def|function|func)|endp|endproc)\b.*", "a subroutine ends with RTN"),
    (r"(?:let|var|int|const|char|static|define|dim|local|byte|word)\s+([A-Za-z_]\w*)\s*=?.*",
     "there are no variables: READ and WRIT use the registers of memory, and [equates] of a project names numbers such as {0}"),
    (r"[{}]+;?", "there are no blocks in braces: labels and jumps take their place"),
    (r"(\w+)\(\)?.*\)?;?", "a call is written ?NC XQ :{0}"),
    (r"(?:org|origin|start|\.start|base)\s+\S+",
     "a source has no origin: --page, `asm P` or a project gives the page, and `at` of a FILE.page a place in it"),
    (r"\.?(?:page|bank)\s+\S+", "a source names no page and no bank: --page, --bank, `asm P bN` or a project gives them"),
    (r"\.?end|\.(?:stop|exit)\b.*", "the end of a source needs no directive: remove it"),
    (r"(?:section|segment|\.section|\.segment|\.code|code|model|assume|use)\b\s*\S*", "this directive gives no word: remove it"),
    (r"(?:FNAME|FUNC|FNC|FCN|FUNCTION|LABEL|LBL|TITLE|STRING)\s+\"([^\"]*)\"", "a name of a function is NAME \"{0}\""),
]
# The statements that come before the forms of other assemblers.
EARLY = re.compile(r"(?:\.?section|\.?segment|let|var|int(?=\s+[a-z_])|const(?=\s+\w+\s*=)|def|proc|procedure|function|void|page|bank|for|"
                   r"while|do|times|dup|\.?rept|\.?rpt|\.?endr|else|unless|when|switch|end\s?if|\.?end|\.stop|\.exit)\b", re.I)
# Forms of registers that are not A, B and C, in operations.
COPIES = {"M": ("C=M", "M=C"), "N": ("C=N", "N=C"), "G": ("C=G", "G=C"), "ST": ("C=ST", "ST=C")}
WITH_C_ALONE = re.compile(r"(M|N|G|ST|[ABC])<>(M|N|G|ST|[ABC])")
COPIED = re.compile(r"(M|N|G|ST|[ABC])(?:=|<-|:=)(M|N|G|ST|[ABC])")
IN_MEMORY = re.compile(r"([XYZTL]|R[0-9]{2})=C|C=([XYZTL]|R[0-9]{2})")
NUMBERS = {"T": "DATA", "Z": "1", "Y": "2", "X": "3", "L": "4"}


def of_label(code: str, column: int, is_instruction: Callable[[str], bool]) -> Cause | None:
    """Finds a label that is written otherwise. `is_instruction` is a function that says whether words begin with an instruction."""
    found = re.match(r"(\S.*?)?(\s*)(:+)(\s+|\Z)(.*)", code)
    if found and '"' not in found[0].replace('"', "", 2) and (not found[5] or is_instruction(found[5]) or re.match(NAME + ":", found[5])):
        head, gap, colons = found.groups()[:3]
        if head and not is_instruction(head):
            return of_name(head, column, gap, colons)
    first = re.match(rf":({NAME})\s+(.+)", code)
    if first and is_instruction(first[2]):
        return column, f"the colon of a label follows its name: write {first[1]}:"
    plain = re.match(rf"([^\w\s]?)({NAME})([^\w\s:=#<>?]*)\s+(.+)", code)
    if plain and is_instruction(plain[4]) and not is_instruction(code):
        signs = f"{plain[1]}{plain[3]}"
        return column, f"{'found ' + signs + ' beside the label' if signs else 'the colon of the label is missing'}: write {plain[2]}:"
    return None


def of_name(head: str, column: int, gap: str, colons: str) -> Cause | None:
    """Finds what is wrong with the name and the colon of a label."""
    if len(head) > 12 and re.fullmatch(r"\w+", head):
        return None
    if re.fullmatch(NAME, head):
        if len(colons) > 1:
            return column + len(head), f"a label has one colon: write {head}:"
        if gap:
            return column + len(head), f"no space is between a label and its colon: write {head}:"
        return None
    wrong = re.search(r"[^0-9A-Za-z_]", head)
    proposal = re.sub(r"^[^A-Za-z]+|[^0-9A-Za-z_]+$", "", re.sub(r"(?<=\w)[^0-9A-Za-z_]+(?=\w)", "_", head))
    hint = f": write {proposal}:" if re.fullmatch(NAME, proposal) else ""
    if not wrong and head[:1].isdigit():
        return None
    sign = "a space" if wrong and wrong[0] in " \t" else wrong[0] if wrong else head[0]
    return column + (wrong.start() if wrong else 0), f"{sign} is not part of a name, which has letters, digits and _, a letter first{hint}"


def of_comment(code: str, column: int) -> Cause | None:
    """Finds a comment that begins with other signs."""
    found = COMMENT.match(code)
    if not found or re.match(r"\*=|#(?:define|include|if|else|endif|macro)|%(?:macro|define|include|if)|'[^']*'\s|--?\w+\s*->", code, re.I):
        return None
    return column, f"a comment begins with ;: write ; in place of {found[0].strip()}"


def of_case(words: Words, names: Iterable[str], code: str) -> Cause | None:
    """Finds an instruction in lower case."""
    for size in (2, 1):
        name = " ".join(word for _, word in words[:size])
        if len(words) >= size and name.upper() in names and name not in names:
            return words[0][0], f"mnemonics are in upper case: write {name.upper()}"
    return None


def of_no_space(words: Words, names: Iterable[str], with_operand: Iterable[str]) -> Cause | None:
    """Finds an operand that touches its instruction, and a space that is missing in a name, or too many."""
    column, first = words[0]
    spaced = {re.sub(r"\s", "", name): name for name in names}
    for size in (3, 2, 1):
        texts = [word for _, word in words[:size]]
        own = spaced.get("".join(texts))
        if len(texts) == size and own and own != " ".join(texts) and own not in texts[0]:
            wrong = "no space is inside the name" if " " not in own else "a space is missing"
            rest = " ".join(word for _, word in words[size:])
            colon = ":" if own in LONG and re.fullmatch(NAME, rest) and not re.fullmatch("[0-9A-F]{4}", rest) else ""
            return column, f"{wrong}: write {own}{rest and f' {colon}{rest}'}"
    if len(words) > 1 and f"{first} {words[1][1]}" not in names:
        two = re.fullmatch(r"(\?N?C)|(.+)", first)
        longer = [name for name in LONG if two and two[1] and f"{first} {words[1][1]}".startswith(name)]
        if longer and len(words) == 2:
            rest = f"{first} {words[1][1]}"[len(longer[0]):]
            return (column, f"a space is missing after {longer[0]}: write {longer[0]} {rest}") if rest else None
    if len(words) != 1:
        return None
    for name in sorted(with_operand, key=len, reverse=True):
        rest = first[len(name):]
        if first.startswith(name) and rest and (rest in FIELDS or re.fullmatch(r"[-+]?[0-9A-F]{1,4}|:\w+", rest)) and \
                not re.fullmatch(r"\??R=[A-F]|\w+=\w+", first if not rest[0].isdigit() else ""):
            return column, f"a space is missing after {name}: write {name} {rest}"
    return None


def of_statement(code: str, column: int) -> Cause | None:
    """Finds a statement of another language."""
    for pattern, cause in STATEMENTS:
        found = re.fullmatch(pattern, code.strip(), re.I)
        if found:
            return column, cause.format(*found.groups())
    return None


def of_elsewhere(words: Words, code: str, names: Iterable[str], operations: Iterable[str]) -> Cause | None:
    """Finds an instruction of another processor, with what its operands mean here."""
    column, first = words[0]
    name = first.upper()
    if name in names or name == "CONST" and "=" in code or name not in ELSEWHERE and name not in OF_ONE and name not in OF_TWO:
        return None
    if words[1:] and f"{name} {words[1][1].upper()}" in names:
        return None
    what = "a statement of another language" if name in PRINTED else "an instruction of another processor"
    wanted = meant(code)
    way = own_way(wanted) if wanted and wanted != re.sub(r"\s", "", code.upper()) else ()
    if way:
        field = ", each with a field such as ALL" if way[1:] else ", with a field such as ALL" if way[0] in operations else ""
        return column, f"{first} is {what}: here it is {in_words(way)}{field}"
    if name in ELSEWHERE:
        return column, f"{first} is {what}: here it is {ELSEWHERE[name]}"
    if name in OF_ONE or name in OF_TWO:
        return column, f"{first} is {what}: here an operation is written like C=A+C ALL, with A, B and C and a field"
    return None


# Operations with the pointers, the carry, the status bits, PC and the returns, and digit by digit.
SPECIAL = [
    (r"[ABCMN]=(?:R|P|Q|PT)", "no instruction copies a pointer to a register: ?R= compares it with a place"),
    (r"(?:P|Q|PT)=([0-9]+)", "the pointers are set by SLCT P or SLCT Q, and then R= {0}"),
    (r"(?:P|Q|PT|R)=[ABC]", "no instruction copies a register to a pointer: R= takes a place, 0 to 13"),
    (r"(?:P|Q|PT)=(?:P|Q|PT)", "no instruction copies a pointer: R= sets the active one, after SLCT P or SLCT Q"),
    (r"(?:P|Q|PT)(?:\+\+|\+=1|=(?:P|Q|PT)\+1)", "the active pointer is moved by R=R+1, after SLCT P or SLCT Q"),
    (r"(?:P|Q|PT)(?:--|-=1|=(?:P|Q|PT)-1)", "the active pointer is moved by R=R-1, after SLCT P or SLCT Q"),
    (r"(?:CY|CARRY|CF|C?C)=[01]", "no instruction only sets the carry: sums and tests set it, and NOP clears it"),
    (r"\??(?:CY|CARRY|CF|CC)(?:=[01])?\??", "the carry is tested by JC and JNC, ?C RTN and ?NC RTN, directly after what sets it"),
    (r"(?:C?ST)=(?!T\Z|C\Z|0\Z)[0-9]+", "a status bit is set by SETF n and cleared by CLRF n, and ST=C takes all of them from C"),
    (r"(?:PC=.+|.+=PC)", "no instruction copies PC: GOTO ADR jumps to the address in C, and POP ADR takes a return address into C"),
    (r"C=(?:STACK|RTN|RET)", "POP ADR takes the newest return address into C"),
    (r"(?:STACK|RTN|RET)=C", "PUSH ADR makes the address in C the newest return"),
    (r"C(?:=(?:C[&.*]A|A[&.*]C)|&=A)", "C=C AND A is written in words, and has no field"),
    (r"C(?:=(?:C\|A|A\|C)|\|=A)", "C=C OR A is written in words, and has no field"),
    (r"[ABC]=[ABC](?:AND|OR|XOR|&|\||\^)[ABC]|[ABC][&|^]=[ABC]", "the processor has only C=C AND A and C=C OR A for this"),
    (r"\??[ABC](?:=|==|#|!=|<|>|<=|>=)(?:[1-9]|[0-9]{2,})",
     "a test compares two registers, or a register with 0: put the number into A or C before it, and then ?A#C or ?A<C"),
    (r"\??[ABC](?:<|>=)0", "a field is never below 0: the sign of a number is the digit in the field MS, ?C#0 MS"),
]


def of_special(flat: str, column: int) -> Cause | None:
    """Finds an operation with a pointer, the carry or a constant, or a logical one."""
    for pattern, cause in SPECIAL:
        found = re.fullmatch(pattern, flat.upper())
        if found and not (re.fullmatch(r"[ABC]=[0-9]+", flat.upper())):
            return column, cause.format(*found.groups())
    return None


def one_off(word: str, names: Iterable[str]) -> list[str]:
    """Returns the names that differ from a word in one character: another one, one more or one less."""
    found = []
    for name in sorted(names):
        start = len(commonprefix([word, name]))
        rest, other = word[start:], name[start:]
        same = len(commonprefix([rest[::-1], other[::-1]]))
        if max(len(rest), len(other)) - same == 1:
            found.append(name)
    return found


def of_condition(words: Words) -> Cause | None:
    """Finds a conditional jump or call in the words of other assemblers, or without one of its two words."""
    column, first = words[0]
    second = words[1][1].upper() if words[1:] else ""
    kinds = {"JMP": "GO", "GOTO": "GO", "JUMP": "GO", "BRA": "GO", "J": "GO", "CALL": "XQ", "JSR": "XQ", "GOSUB": "XQ", "XEQ": "XQ",
             "RET": "RTN", "RETURN": "RTN"}
    name = first.upper().lstrip("?")
    if name in ("NC", "C") and second in kinds:
        return column, f"{first} {words[1][1]} is written here as ?{name} {kinds[second]}"
    if name in ("NC", "C") and first[:1] == "?" and re.match(r":\w|[0-9A-F]{4}\Z", second):
        return column, f"the second word is missing: write {first} XQ {words[1][1]} for a call, and {first} GO {words[1][1]} for a jump"
    if first.upper() in ("?XQ", "?GO", "?RTN"):
        return column, f"the condition is missing: write ?NC {name} or ?C {name}"
    return None


def of_registers(flat: str, column: int) -> Cause | None:
    """Finds a copy between registers that the processor does not have."""
    copied, stored = COPIED.fullmatch(flat), IN_MEMORY.fullmatch(flat)
    if copied and (copied[1] in COPIES or copied[2] in COPIES) and flat not in sum(COPIES.values(), ()):
        target, source = copied.groups()
        steps = [*([COPIES[source][0]] if source in COPIES else ["A<>C ALL" if source == "A" else "C=B ALL"]),
                 *([COPIES[target][1]] if target in COPIES else ["A=C ALL" if target == "A" else "B<>C ALL"])]
        return column, f"the processor has no {flat}: {' and then '.join(steps)}"
    if stored:
        name = stored[1] or stored[2]
        if name in NUMBERS:
            own = f"WRIT {NUMBERS[name]}" if stored[1] else f"READ {NUMBERS[name]}"
            return column, f"{name} is a register of memory: write {own}"
        return column, f"{name} is a register of memory: put its address into C, RAM SLCT, and then {'WRIT' if stored[1] else 'READ'} DATA"
    return None


def of_exchange(flat: str, column: int) -> Cause | None:
    """Finds an exchange with a register that exchanges only with C."""
    found = WITH_C_ALONE.fullmatch(flat)
    own = [name for name in found.groups() if name in COPIES] if found else []
    if not found or not own:
        return None
    other = next((name for name in found.groups() if name != own[0]), own[0])
    if other in ("C", own[0]):
        return (column, f"{flat} is written here as C<>{own[0]}") if flat == f"{own[0]}<>C" else None
    with_other = f"C<>{other}" if other in COPIES else f"{other}<>C ALL"
    way = f"C<>{own[0]}" if other in COPIES and not {*own} <= {*"MN"} else f"{with_other}, C<>{own[0]} and then {with_other}"
    return column, f"the processor has no {flat}: {own[0]} exchanges only with C{', whole' if own[0] in 'MN' else ''}: {way}"


def of_letters(words: Words, names: Iterable[str]) -> Cause | None:
    """Finds a letter in place of a digit in an instruction, or a digit in place of a letter."""
    plain = {name.translate(LETTERS): name for name in names}
    for size in (2, 1):
        first = " ".join(word for _, word in words[:size])
        own = plain.get(first.translate(LETTERS), first)
        if len(words) >= size and own != first:
            found, meant_by = next(pair for pair in zip(first, own) if pair[0] != pair[1])
            kinds = ["digit" if sign.isdigit() else "letter" if sign.isalpha() else "sign" for sign in (found, meant_by)]
            line = " ".join([own, *(word for _, word in words[size:])])
            return words[0][0], f"{kinds[0]} {found} in place of the {kinds[1]} {meant_by}: write {line}"
    return None


def parts_of(words: list[str]) -> tuple[str, str]:
    """Returns the operation of a line without spaces, and its field by the name that it has here; an empty text without a field."""
    fields = {**{field: field for field in FIELDS}, "X": "S&X", "W": "ALL", "S": "MS", "PT": "@R", "WPT": "R<", "PQ": "P-Q"}
    last = words[-1].strip("[](){}.,").upper() if words[1:] else ""
    if last in fields and not re.search(r"[-+=<>#&|*]\Z", words[-2]):
        return "".join(words[:-1]), fields[last]
    flat = "".join(words)
    found = re.fullmatch(r"(.+?)[.,\[(:]([A-Z&@<-]{1,3})[\])]?", flat, re.I)
    if found and found[2].upper() in fields:
        return found[1], fields[found[2].upper()]
    return flat, ""


def of_operation(code: str, column: int, operations: Iterable[str]) -> Cause | None:
    """Finds an operation that another language writes otherwise, or whose field is missing or touches it."""
    words = code.replace("\t", " ").rstrip(";, ").split()
    flat, field = parts_of(words)
    body = flat if "=" in flat or len(words) == 1 else " ".join(words)
    wanted = meant(body)
    known = [name for name in (flat.upper(), wanted) if name in operations]
    if known and known[0] != words[0]:
        own = f"{known[0]} {field}" if field else f"{known[0]} and a field, for example {known[0]} ALL"
        if flat != known[0]:
            return column, f"{flat} is written here as {own}"
        return column, (f"an operation has no spaces inside: write {own}" if len(words) > 1 else
                        f"one space is between an operation and its field: write {own}")
    if "R" not in wanted and re.search(r"[=<>#+-]", wanted):
        way = own_way(wanted if wanted[:1] == "?" or not re.search(r"[<>#!]|==", wanted.replace("<>", "")) else f"?{wanted}")
        if way and way[0] != flat:
            tail = f" {field}" if field else ""
            steps = tuple(f"{step}{tail}" if step in operations else step for step in way)
            is_own = wanted == flat and not (len(way) == 1 and way[0][0] == "?")
            return column, (f"the processor has no {flat}: " if is_own else f"{flat} is written here as ") + in_words(steps)
    return None
