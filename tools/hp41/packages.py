"""A package of Debian with the files of a release, made by dpkg-deb. The same release always gives the same bytes."""
import gzip
import hashlib
import os
import re
import shutil
import subprocess
import tempfile
from typing import Iterator

from .crates import NAME
from .decks import Failure
from .releases import NOT_BUILT, Release

PACKAGE, ARCHITECTURE = "hp41-bench", "amd64"
FOLDER = f"usr/lib/{PACKAGE}"

CONTROL = """\
Package: {package}
Version: {version}
Architecture: {architecture}
Maintainer: {maintainer}
Installed-Size: {size}
Depends: libc6 (>= {libc}), python3 (>= 3.9)
Section: otherosfs
Priority: optional
Description: bench for the microcode and the programs of the HP-41
 It is an emulator of the HP-41C and HP-41CV for experiments. It plugs,
 assembles and steps microcode of the Nut processor, and loads and runs
 keystroke programs, driven by text files of commands. What each word, program
 line and key does is written down in definitions, and the program is proved to
 follow them. It does not contain the ROM of the calculator.
"""

COPYRIGHT = """\
Format: https://www.debian.org/doc/packaging-manuals/copyright-format/1.0/
Upstream-Name: HP-41 bench
Comment: The repository states no licence. Ask its maintainers before you pass
 it, or a release, on.

Files: *
Copyright: {year} Firdanke maintainers
License: none-stated
 The repository states no licence.
"""

CHANGES = """\
{package} ({version}) unstable; urgency=medium

  * Release {version}, from commit {commit}.
    {folder}/CHANGELOG.md says what has changed.

 -- {maintainer}  {date}
"""

# Reports of lintian that are right, and why this is intended.
OVERRIDES = """\
# The program has the bytes whose checksum the file RELEASE gives.
{package}: unstripped-binary-or-object [{folder}/program/{name}]
"""


def squeezed(text: bytes) -> bytes:
    """Returns a compressed text, as Debian wants it for manual pages and changes."""
    return gzip.compress(text, compresslevel=9, mtime=0)


def libc_of(program: bytes) -> str:
    """Returns the oldest version of the C library with which the program starts."""
    found = re.findall(rb"GLIBC_(\d+)\.(\d+)", program)
    return ".".join(map(str, max((int(major), int(minor)) for major, minor in found)))


def links(release: Release) -> Iterator[tuple[str, str]]:
    """Yields the path of each link in the package, and the file of the release that it leads to."""
    yield "usr/bin/bench", "bench"
    for file in release.files:
        if file.is_program and file.path.startswith("tools/"):
            yield f"usr/bin/bench-{os.path.basename(file.path)}", file.path
    yield "usr/share/bash-completion/completions/bench", "completions/bench.bash"
    yield "usr/share/zsh/vendor-completions/_bench", "completions/_bench"
    yield "usr/share/fish/vendor_completions.d/bench.fish", "completions/bench.fish"
    for path in ("docs", "examples", "README.md", "RELEASE"):
        yield f"usr/share/doc/{PACKAGE}/{path}", path


def files_of(release: Release, fields: dict[str, str]) -> Iterator[tuple[str, bytes, int]]:
    """Yields the path, the bytes and the mode of each file of the package."""
    for file in release.files:
        yield f"{FOLDER}/{file.path}", file.data, 0o755 if file.is_program else 0o644
        if file.path.endswith(".1"):
            yield f"usr/share/man/man1/{os.path.basename(file.path)}.gz", squeezed(file.data), 0o644
        if file.path == "CHANGELOG.md":
            yield f"usr/share/doc/{PACKAGE}/changelog.gz", squeezed(file.data), 0o644
    yield f"usr/share/doc/{PACKAGE}/copyright", COPYRIGHT.format(**fields).encode(), 0o644
    yield f"usr/share/doc/{PACKAGE}/changelog.Debian.gz", squeezed(CHANGES.format(**fields).encode()), 0o644
    yield f"usr/share/lintian/overrides/{PACKAGE}", OVERRIDES.format(**fields).encode(), 0o644


def write(path: str, data: bytes, mode: int = 0o644) -> None:
    """Writes a file, with the folders above it."""
    os.makedirs(os.path.dirname(path), exist_ok=True)
    with open(path, "wb") as file:
        file.write(data)
    os.chmod(path, mode)


def fill(root: str, release: Release, fields: dict[str, str]) -> None:
    """Writes all files and links of the package into a folder."""
    sums = []
    for path, data, mode in files_of(release, fields):
        write(f"{root}/{path}", data, mode)
        sums.append(f"{hashlib.md5(data).hexdigest()}  {path}\n")
    for path, target in links(release):
        os.makedirs(os.path.dirname(f"{root}/{path}"), exist_ok=True)
        os.symlink(os.path.relpath(f"{FOLDER}/{target}", os.path.dirname(path)), f"{root}/{path}")
    size = sum(-(-os.path.getsize(f"{at}/{name}") // 1024) for at, _, names in os.walk(root) for name in names)
    write(f"{root}/DEBIAN/md5sums", "".join(sorted(sums)).encode())
    write(f"{root}/DEBIAN/control", CONTROL.format(size=size, **fields).encode())
    for at, folders, names in os.walk(root):
        for name in folders:
            os.chmod(f"{at}/{name}", 0o755)
        for name in [*folders, *names]:
            os.utime(f"{at}/{name}", (release.seconds, release.seconds), follow_symlinks=False)


def package(release: Release) -> tuple[str, bytes]:
    """Returns the name of the package and its bytes."""
    if not shutil.which("dpkg-deb"):
        raise Failure("dpkg-deb is not on PATH: install the package dpkg, or omit --deb", NOT_BUILT)
    program = next(file.data for file in release.files if file.path == f"program/{NAME}")
    fields = {"package": PACKAGE, "version": release.version, "architecture": ARCHITECTURE, "maintainer": release.maintainer,
              "libc": libc_of(program), "name": NAME, "folder": FOLDER, "commit": release.commit, "date": release.mail_date,
              "year": release.date[:4]}
    with tempfile.TemporaryDirectory() as room:
        os.mkdir(f"{room}/root", 0o755)
        os.chmod(f"{room}/root", 0o755)
        fill(f"{room}/root", release, fields)
        words = ["dpkg-deb", "--root-owner-group", "-Zxz", "--build", f"{room}/root", f"{room}/package.deb"]
        ran = subprocess.run(words, stdin=subprocess.DEVNULL, capture_output=True, check=False,
                             env=os.environ | {"SOURCE_DATE_EPOCH": str(release.seconds), "LC_ALL": "C", "TZ": "UTC"})
        if ran.returncode != 0:
            raise Failure(f"dpkg-deb ended with status {ran.returncode}: {ran.stderr.decode(errors='replace').strip() or 'no message'}",
                          NOT_BUILT)
        with open(f"{room}/package.deb", "rb") as file:
            return f"{PACKAGE}_{release.version}_{ARCHITECTURE}.deb", file.read()
