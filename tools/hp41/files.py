"""Writes the output files of tools: a new file replaces an older one only when it is complete."""
import os
import sys
import tempfile
from typing import Iterable, Optional

from .decks import Failure, end_with_reader


def check_out(out: str, sources: Iterable[tuple[str, str]]) -> None:
    """Checks that OUT can be written, and that it is not one of the files that are read. `-` is standard output."""
    if out == "-":
        return
    if os.path.exists(out) and not os.path.isfile(out):
        what = "a folder" if os.path.isdir(out) else "a device or a pipe"
        raise Failure(f"{out}: found {what}, expected a regular file: choose another output file")
    for what, path in sources:
        if path != "-" and is_same(path, out):
            raise Failure(f"{out}: this is also {what}, which would be overwritten: choose another output file")
    folder = os.path.dirname(os.path.realpath(out) if os.path.islink(out) else out)
    if not os.path.isdir(folder or "."):
        raise Failure(f"{out}: {why_no_folder(folder)}")


def why_no_folder(folder: str) -> str:
    """Returns why a path is not a folder: it or a part of it is a file, or does not exist."""
    part = folder
    while part and not os.path.exists(part):
        part = os.path.dirname(part)
    if part and not os.path.isdir(part):
        return f"{part} is a file, expected a folder: choose another path"
    return f"the folder {folder} does not exist: create it first"


def make_folder(path: str, option: str) -> None:
    """Makes the folder of an option, with those above it, if it does not exist."""
    try:
        os.makedirs(path, exist_ok=True)
    except FileExistsError as error:
        raise Failure(f"{option} {path}: found a file, expected a folder") from error
    except OSError as error:
        raise Failure(f"{option} {path}: cannot be made: {error.strerror}") from error


def is_same(one: str, other: str) -> bool:
    """Returns whether two paths lead to the same file, even if it does not exist yet."""
    if os.path.exists(one) and os.path.exists(other):
        return os.path.samefile(one, other)
    return os.path.realpath(one) == os.path.realpath(other)


def put(data: bytes, out: str) -> None:
    """Writes a new file in the folder of OUT, and renames it to OUT."""
    if out == "-":
        end_with_reader()
        sys.stdout.buffer.write(data)
        sys.stdout.buffer.flush()
        return
    path = os.path.realpath(out)
    new: Optional[str] = None
    try:
        handle, new = tempfile.mkstemp(prefix=f".{os.path.basename(path)[:100]}.", dir=os.path.dirname(path))
        with open(handle, "wb") as file:
            file.write(data)
            file.flush()
            os.fsync(file.fileno())
        os.chmod(new, os.stat(path).st_mode & 0o777 if os.path.exists(path) else 0o666 & ~mask())
        os.replace(new, path)
        new = None
    except OSError as error:
        raise Failure(f"{out}: cannot be written: {error.strerror}") from error
    finally:
        if new and os.path.exists(new):
            os.unlink(new)


def mask() -> int:
    """Returns the permission bits that a new file does not get."""
    bits = os.umask(0)
    os.umask(bits)
    return bits
