"""The numbers and fields in the instructions of a function: mistakes are often at these numbers, so that claims are tried there."""
from __future__ import annotations

from .claims import FIELDS
from .codes import ADDRESSES, Code
from .symbols import PLACES

# How many instructions of a function are read.
MOST_READ = 400

# Instructions after which the next one is not executed, and those that go on at an address, or at a distance.
ENDS, LONG, SHORT = ("RTN", "GOTO ADR", "GOTO KEY"), ("?NC XQ", "?C XQ", "?NC GO", "?C GO"), ("JNC", "JC")

# Instructions whose operand is a digit, the registers of operations on a field, and other instructions that read a register.
OF_DIGITS, WIDE = ("LD@R",), "ABC"
READS = {"C=M": "M", "C<>M": "M", "C=N": "N", "C<>N": "N", "C=G": "G", "C<>G": "G", "C=ST": "ST", "T=ST": "ST", "?FSET": "ST",
         **dict.fromkeys(("RCR", "WRIT", "M=C", "N=C", "G=C", "ST=C"), "C")}


# The fields of instructions.
OPERANDS = ("@R", "S&X", "R<", "ALL", "P-Q", "XS", "M", "MS")

# A field of a register: the name of the register, and the first and the last place.
Field = tuple[str, int, int]


def instructions_of(code: Code, label: str) -> list[tuple[str, str]]:
    """Returns the instructions that a function and the functions that it calls may execute, each as its name and its operand. Banks that
    are activated are not followed."""
    found: dict[int, tuple[str, str]] = {}
    left = [code.labels[label]]
    while left and len(found) < MOST_READ:
        place = left.pop()
        one = code.instructions.get(place)
        if place in found or one is None:
            continue
        name, _, operand = one.text.rpartition(" ")
        found[place] = name, operand
        if name in LONG:
            target = int(operand, 16)
            left += [bank + target for bank in range(0, 4 * ADDRESSES, ADDRESSES) if bank + target in code.instructions]
        if name in SHORT:
            left.append(place + int(operand, 16))
        if one.text not in ENDS and name != "?NC GO":
            left.append(place + len(one.words))
    return list(found.values())


def constants_of(code: Code, label: str) -> list[int]:
    """Returns the numbers that the instructions of a function load."""
    found = {int(operand, 16) for name, operand in instructions_of(code, label) if name == "LDI"}
    found |= {int(operand) for name, operand in instructions_of(code, label) if name in OF_DIGITS}
    return sorted(found)


def fields_of(code: Code, label: str) -> list[Field]:
    """Returns the fields of A, B and C that the instructions of a function use."""
    found = set()
    for name, operand in instructions_of(code, label):
        places = FIELDS.get(operand)
        if places and places != (0, PLACES - 1):
            found |= {(register, *places) for register in of_operation(name)}
    return sorted(found)


def of_operation(name: str) -> set[str]:
    """Returns the registers of an operation on a field."""
    return {register for register in WIDE if register in name.lstrip("LRSHF?")}


def registers_of(code: Code, label: str) -> set[str]:
    """Returns registers that the instructions of a function use."""
    found = set()
    for name, operand in instructions_of(code, label):
        found |= of_operation(name) if operand in OPERANDS else set()
        found |= {READS[one] for one in (name, operand) if one in READS}
    return found
