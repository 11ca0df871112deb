"""Files .mod: a module with its pages and banks. Reads and writes them, and finds a page for each; docs/MODULES.md has the layout."""
from typing import Dict, List, NamedTuple, Tuple

from .records import Damaged
from .sources import CHECKSUM_PLACE, ID_PLACE, checksum_of

FORMAT = b"MOD1\0"
PAGES = "456789ABCDEF"
PAGE_SIZE = 4096

# The texts of the header with their lengths, and its numbers of one byte; then bytes for hardware, which are zero in most files.
TEXTS = (("title", 50), ("version", 10), ("part number", 20), ("author", 50), ("copyright", 100), ("license", 200), ("comments", 255))
NUMBERS = ("category", "hardware", "memory modules", "extended memory", "original", "update", "pages")
CUSTOM = 32
HEADER = len(FORMAT) + sum(length for _, length in TEXTS) + len(NUMBERS) + CUSTOM

# A page: its name, its id, seven numbers of one byte, its words in ten bits each, and bytes for hardware.
NAME, ID, PACKED = 20, 9, PAGE_SIZE * 10 // 8
PAGE = NAME + ID + 7 + PACKED + CUSTOM

# Pages that are relative to others: any page; the lower and the upper one of two; an even and an odd one; one after the other.
ANY, LOWER, UPPER, EVEN, ODD, ORDERED = 0x1F, 0x2F, 0x3F, 0x4F, 0x5F, 0x6F
FIXED = range(16)


class Image(NamedTuple):
    """A bank of a page in a file: its name and id, its page or how it is relative to others, the group of these, its bank and the group
    of the banks of one page, whether it is RAM, whether that is protected against writing, and its words."""
    name: str
    id: str
    position: int
    group: int
    bank: int
    bank_group: int
    is_ram: bool
    is_protected: bool
    words: List[int]

    def remarks(self) -> List[str]:
        """Returns a note if the page has a checksum that is not that of its words."""
        last, wanted = self.words[CHECKSUM_PLACE], checksum_of(self.words[:CHECKSUM_PLACE])
        if self.is_ram or not last or last == wanted:
            return []
        return [f"the checksum at FFF is {last:03X}, but the words of the page give {wanted:03X}: a word may be wrong"]

    def bytes(self) -> bytes:
        """Returns the image as the bytes of a .rom file."""
        return b"".join(word.to_bytes(2, "big") for word in self.words)


def text_at(data: bytes, at: int, length: int) -> str:
    """Returns the text of a field, up to its first null byte."""
    return data[at:at + length].split(b"\0")[0].decode("latin-1").strip()


def unpacked(data: bytes) -> List[int]:
    """Returns words of ten bits: five bytes have four words, the lowest bits first."""
    words = []
    for at in range(0, len(data), 5):
        bits = int.from_bytes(data[at:at + 5], "little")
        words += [bits >> shift & 0x3FF for shift in (0, 10, 20, 30)]
    return words


def packed(words: List[int]) -> bytes:
    """Returns words in ten bits each."""
    return b"".join(sum(word << 10 * number for number, word in enumerate(words[at:at + 4])).to_bytes(5, "little")
                    for at in range(0, len(words), 4))


def read_mod(data: bytes) -> List[Image]:
    """Returns the images in a file. Raises Damaged if it does not add up."""
    if data[:len(FORMAT)] != FORMAT:
        raise Damaged(0, data[:len(FORMAT)].hex().upper(), f"{FORMAT.hex().upper()}, MOD1")
    if len(data) < HEADER:
        raise Damaged(len(data), "the end of the file", f"a header of {HEADER} bytes")
    count = data[HEADER - CUSTOM - 1]
    if not count:
        raise Damaged(HEADER - CUSTOM - 1, "00 as the number of pages", "01 or more")
    if len(data) != HEADER + count * PAGE:
        raise Damaged(min(len(data), HEADER + count * PAGE), f"a file of {len(data):,} bytes",
                      f"{HEADER + count * PAGE:,}, a header and {count} page{'' if count == 1 else 's'}")
    return [image_at(data, HEADER + number * PAGE) for number in range(count)]


def image_at(data: bytes, at: int) -> Image:
    """Returns the image that begins at a byte of a file."""
    numbers = at + NAME + ID
    position, group, bank, bank_group, is_ram, is_protected, _ = data[numbers:numbers + 7]
    if position not in FIXED and position not in (ANY, LOWER, UPPER, EVEN, ODD, ORDERED):
        raise Damaged(numbers, f"{position:02X} as the page", "00 to 0F, or 1F, 2F, 3F, 4F, 5F or 6F")
    if not 1 <= bank <= 4:
        raise Damaged(numbers + 2, f"bank {bank}", "a bank from 1 to 4")
    return Image(text_at(data, at, NAME), text_at(data, at + NAME, ID), position, group, bank, bank_group, is_ram == 1, is_protected == 1,
                 unpacked(data[numbers + 7:numbers + 7 + PACKED]))


def write_mod(title: str, images: List[Image]) -> bytes:
    """Returns a file with images."""
    texts = {"title": title}
    numbers = {"original": 1, "pages": len(images)}
    header = FORMAT + b"".join(field(texts.get(name, ""), length) for name, length in TEXTS)
    header += bytes(numbers.get(name, 0) for name in NUMBERS) + bytes(CUSTOM)
    return header + b"".join(
        field(one.name, NAME) + field(one.id, ID)
        + bytes([one.position, one.group, one.bank, one.bank_group, one.is_ram, one.is_protected, is_module(one.words)])
        + packed(one.words) + bytes(CUSTOM) for one in images)


def field(text: str, length: int) -> bytes:
    """Returns a text with null bytes up to its length. There is at least one."""
    return text.encode("latin-1", "replace")[:length - 1].ljust(length, b"\0")


def is_module(words: List[int]) -> bool:
    """Returns whether a page begins with the table of a module."""
    return 1 <= words[0] <= 31 and 1 <= words[1] <= 64


def id_of(words: List[int]) -> str:
    """Returns the id of a page, as programs that test modules show it; an empty text if it has none."""
    letters = [word & 0x3F for word in reversed(words[ID_PLACE:CHECKSUM_PLACE])]
    return "".join(chr(letter | (0 if letter & 0x20 else 0x40)) for letter in letters) if any(letters) else ""


def pages_of(images: List[Image], first: str) -> List[str]:
    """Returns a page for each image: its own if the file fixes it, otherwise the next free ones from `first` on. Banks of a group have the
    same page. A page that does not exist is an empty text."""
    taken = {f"{one.position:X}" for one in images if one.position in FIXED}
    free = [page for page in PAGES[PAGES.index(first):] if page not in taken]
    found: List[str] = []
    banks: Dict[int, str] = {}
    for one in images:
        shared = banks.get(one.bank_group) if one.bank_group else None
        if one.position in FIXED:
            page = f"{one.position:X}"
        elif shared:
            page = shared
        else:
            odd = {LOWER: False, EVEN: False, UPPER: True, ODD: True}.get(one.position)
            page = next((page for page in free if odd is None or int(page, 16) % 2 == odd), "")
            free = [other for other in free if other > page] if page else []
        if one.bank_group:
            banks[one.bank_group] = page
        found.append(page)
    return found


def images_in(pages: List[Tuple[str, int, List[int], str, bool]]) -> List[Image]:
    """Returns the images of a file from pages: for each bank its page, its number, its words, its name, and whether it is writable. Each
    keeps its page, because its jumps to other pages contain it."""
    several = [page for page in dict.fromkeys(page for page, *_ in pages) if sum(page == other for other, *_ in pages) > 1]
    return [Image(name, id_of(words), int(page, 16), 0, bank, several.index(page) + 1 if page in several else 0, is_writable, False, words)
            for page, bank, words, name, is_writable in pages]
