"""What .ci/prove-module and .ci/prove-programs share: runs of tools/prove-module, and the crates that it writes."""
import os
import subprocess
import tempfile
from collections.abc import Callable, Mapping, Sequence
from typing import Optional

from judging import TOP, Data, fill, judge, put, text_of

from hp41.proving import LIBRARIES, missing


def prove(words: Sequence[str], files: Mapping[str, Data], path: Optional[str] = None) -> tuple[int, str]:
    """Runs the tool in a folder with some files, and with this PATH. Returns its status, and both outputs as they were written."""
    with tempfile.TemporaryDirectory() as room:
        fill(room, files)
        ran = subprocess.run([f"{TOP}/tools/prove-module", *words], cwd=room, stdin=subprocess.DEVNULL, stdout=subprocess.PIPE,
                             stderr=subprocess.STDOUT, check=False, env=os.environ | ({"PATH": path} if path else {}))
        return ran.returncode, ran.stdout.decode()


def crate_text(write: Callable[[str], object]) -> str:
    """Returns the files of the crate that a function writes into a folder, one after the other."""
    with tempfile.TemporaryDirectory() as room:
        write(room)
        paths = sorted(os.path.join(folder, name) for folder, _, names in os.walk(room) for name in names)
        return "".join(f"== {os.path.relpath(path, room)}\n{text_of(path)}" for path in paths)


def same_crate(name: str, text: str, is_recorded: bool) -> None:
    """Compares the crates of a script with those that it has recorded, or records them."""
    path = f"{TOP}/.ci/{name}.crate"
    if is_recorded:
        put(path, text)
    judge(text_of(path) == text, "the crates", f"they are other ones: see .ci/{name} --record")


def has_libraries(*used: tuple[str, ...]) -> bool:
    """Returns whether the libraries of proofs are there. Otherwise prints that the proofs are skipped."""
    lacks = missing(LIBRARIES, *used)
    if lacks:
        print(f"skipped the proofs: {os.path.relpath(LIBRARIES, TOP)} lacks {lacks[0]}.rlib, which ./bench prove --all makes")
    return not lacks
