"""Values of registers for people: numbers, texts, or their digits."""
import re

NUMBER = re.compile("([09])([1-9][0-9]{9})([09][0-9]{2})")
TEXT = re.compile("1[0-9A-F]([0-9A-F]{12})")
ZERO = "0" * 14

# The most digits in a number line, including zeros before them and after the point. Longer numbers are written with an E.
MOST_DIGITS = 10


def number_of(sign: str, digits: str, exponent: int) -> str:
    """Returns a number from its sign, digits and exponent."""
    digits = digits.rstrip("0")
    sign = "-" if sign == "9" else ""
    if 0 <= exponent < MOST_DIGITS:
        digits = digits.ljust(exponent + 1, "0")
        rest = digits[exponent + 1:]
        return f"{sign}{digits[:exponent + 1]}{'.' + rest if rest else ''}"
    if -3 <= exponent < 0 and len(digits) - exponent <= MOST_DIGITS:
        return f"{sign}0.{'0' * (-exponent - 1)}{digits}"
    return f"{sign}{digits[0]}{'.' + digits[1:] if digits[1:] else ''}E{exponent}"


def text_of(digits: str) -> str:
    """Returns the value of a register with these 14 digits: a number, a text in quotes, or `=` and the digits."""
    found = NUMBER.fullmatch(digits)
    if found:
        sign, mantissa, exponent = found.groups()
        exponent = int(exponent) - 1000 if exponent[0] == "9" else int(exponent)
        return number_of(sign, mantissa, exponent)
    found = TEXT.fullmatch(digits)
    if found and digits[1] == "0":
        data = bytes.fromhex(found[1]).lstrip(b"\0")
        return '"' + "".join(map(character, data)) + '"'
    return "0" if digits == ZERO else f"={digits}"


def character(code: int) -> str:
    """Returns a character as texts of program lines have it."""
    return chr(code) if 0x20 <= code <= 0x7E and chr(code) not in '"\\' else f"\\{code:02X}"


def lost_of(before: str, after: str) -> str:
    """Returns the return address that a step has dropped because it pushed a fifth one; an empty text for other steps."""
    old, new = before.split(), after.split()
    return old[3] if old[3] != "0000" and new != old and new[1:] == old[:3] else ""
