"""The registers of memory as the bench prints them, and how register c divides them."""
from typing import NamedTuple

# The addresses of the status registers, and of the first register of main memory.
STATUS, MAIN_START = 0x10, 0x0C0
REGISTER_C = 0x00D

DIGITS = 14
# The constant in register c.
CONSTANT = "169"

# The bit of the third byte of an END that makes it `.END.`.
LAST_END = 0x20


class Divided(NamedTuple):
    """What register c says: the address of the first statistics register and the constant, as digits, the curtain, the address of the
    register of `.END.`, and whether main memory can be divided by them."""
    statistics: str
    constant: str
    curtain: int
    end: int
    is_sound: bool


class Memory:
    """The digits of all registers: the status registers, and main memory up to the address before `top`."""

    def __init__(self, digits: list[str], top: int) -> None:
        """Takes the digits of all registers, in the order of `command`, and the address after the last register."""
        self.digits, self.top = digits, top

    @staticmethod
    def command(top: int) -> bytes:
        """Returns the command lines that print all registers."""
        return b"\n".join(b"show ram %03x" % at for at in (*range(STATUS), *range(MAIN_START, top)))

    def part(self, first: int, last: int) -> list[str]:
        """Returns the digits of the registers from one address of main memory to the one before another."""
        return self.digits[STATUS + first - MAIN_START:STATUS + last - MAIN_START]

    def divided(self) -> Divided:
        """Returns what register c says."""
        c = self.digits[REGISTER_C]
        curtain, end = int(c[8:11], 16), int(c[11:], 16)
        return Divided(c[:3], c[5:8], curtain, end, c[5:8] == CONSTANT and MAIN_START <= end < curtain <= self.top)

    def is_sound(self) -> bool:
        """Returns whether program lines can be read: main memory can be divided, and its last register of programs ends with `.END.`."""
        divided = self.divided()
        end = bytes.fromhex(self.part(divided.end, divided.end + 1)[0][8:]) if divided.is_sound else b"\0\0\0"
        return 0xC0 <= end[0] <= 0xCD and end[2] < 0xF0 and end[2] & LAST_END != 0

    def data_registers(self) -> list[str]:
        """Returns the digits of the data registers; none if the curtain is outside main memory."""
        curtain = self.divided().curtain
        return self.part(curtain, self.top) if MAIN_START < curtain <= self.top else []

    def program_bytes(self) -> bytes:
        """Returns the bytes from the curtain down to the end of program memory."""
        _, _, curtain, end, is_sound = self.divided()
        return bytes.fromhex("".join(reversed(self.part(end, curtain)))) if is_sound else b""
