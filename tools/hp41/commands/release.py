"""Makes a release: an archive that has the proved program, the tools, the documents and the examples.

usage: tools/release [--out FOLDER] [--deb]
       tools/release --verify FILE

  --out FOLDER   the folder for the archive; without it, the current folder
  --deb          also makes a package of Debian, hp41-bench_VERSION_amd64.deb, which has the same files
  --verify FILE  makes the archive or the package again without writing it, and reports whether FILE has the same bytes. If an
                 archive has not, the files that differ are listed

The archive hp41-bench-VERSION-linux-x86_64.tar.gz can be unpacked anywhere. `./bench` and the tools run from there without the kit.
All files are those of the commit that is checked out, which must have no uncommitted changes. The program must be built from its
sources by `./bench prove --all`. The file RELEASE in the archive has the commit, the kit, the last line of the prover for each crate,
and the statements that are assumed. The file MANIFEST has the SHA-256 checksum of each other file. The bytes of the archive depend
only on the commit, the program and the lines of the prover: not on the folder, the time, the user or the order of files on the disk.

The path of each written file, its size and its SHA-256 checksum are printed.

Status 0: the archive is written, or is the same. 1: --verify: it is not the same. 2: the command line is wrong. 3: a file cannot be
read or written. 70: there is no clean commit, or no proved program for it."""
import argparse
import hashlib
import os
import sys

from ..commandlines import Parser
from ..decks import Failure
from ..files import put
from ..packages import package
from ..releases import Release, commit_of, packed_files


def read_options(words: list[str]) -> argparse.Namespace:
    """Parses the command line."""
    parser = Parser(prog="release", add_help=False, allow_abbrev=False,
                    usage="tools/release [--out FOLDER] [--deb], or tools/release --verify FILE")
    parser.add_argument("--out", metavar="FOLDER")
    parser.add_argument("--deb", action="store_true")
    parser.add_argument("--verify", metavar="FILE")
    options = parser.parse_args(words)
    if options.verify is not None and (options.out is not None or options.deb):
        parser.error(f"--{'deb' if options.deb else 'out'} cannot be used with --verify, which writes nothing")
    options.out = "." if options.out is None else options.out
    if not os.path.isdir(options.out):
        found = "a file" if os.path.exists(options.out) else "nothing of this name"
        parser.error(f"--out {options.out}: found {found}, expected an existing folder")
    return options


def made() -> Release:
    """Returns the release of the present commit, after a warning if the prover's line of a crate is not stored."""
    release = Release()
    if release.missing:
        count = len(release.missing)
        print(f"release: warning: the prover's line for {count} crate{'s' if count > 1 else ''} is not stored, for example for "
              f"{release.missing[0]}, and RELEASE says so: ./bench prove --all proves and stores them", file=sys.stderr)
    return release


def report(path: str, data: bytes) -> None:
    """Prints a file of a release with its size and its checksum."""
    print(f"{path}: {len(data):,} bytes, SHA-256 {hashlib.sha256(data).hexdigest()}")


def write(folder: str, has_package: bool) -> int:
    """Writes the archive, and the package if wanted."""
    release = made()
    for name, data in [(f"{release.name}.tar.gz", release.archive()), *([package(release)] if has_package else [])]:
        path = os.path.join(folder, name)
        put(data, path)
        report(path, data)
    return 0


def difference(given: bytes, own: bytes, commit: str) -> str:
    """Returns in which byte a file first differs from the package of a commit."""
    at = next((at for at, pair in enumerate(zip(given, own)) if pair[0] != pair[1]), min(len(given), len(own)))
    return (f"not the package of commit {commit}: found {len(given):,} bytes, expected {len(own):,}; byte {at:,} is the first that "
            "differs, counted from 0")


def verify(path: str) -> int:
    """Compares an archive with that of the present commit."""
    try:
        with open(path, "rb") as file:
            given = file.read()
    except OSError as error:
        raise Failure(f"{path}: cannot be read: {error.strerror}", 3) from error
    if path.endswith(".deb"):
        release = made()
        own = package(release)[1]
        same = f"the same {len(given):,} bytes as the package of commit {release.commit}"
        print(f"{path}: {same if given == own else difference(given, own, release.commit)}")
        return 0 if given == own else 1
    theirs, release = packed_files(path, given), made()
    commit = commit_of(theirs)
    if commit != release.commit:
        raise Failure(f"{path}: it was made from commit {commit or 'unknown'}, but commit {release.commit} is checked out: check out that "
                      "commit, and prove it")
    if given == release.archive():
        print(f"{path}: the same {len(given):,} bytes, from commit {commit}")
        return 0
    ours = {file.path: file.data for file in release.files}
    differing = sorted(name for name in {*ours, *theirs} if ours.get(name) != theirs.get(name))
    for name in differing:
        print(f"{name}: {'only in FILE' if name not in ours else 'not in FILE' if name not in theirs else 'differs'}")
    print(f"{path}: not the archive of commit {commit}: {len(differing)} of {len({*ours, *theirs})} files differ")
    return 1


def main(words: list[str]) -> int:
    """Makes or compares a release. Returns the status."""
    if words in (["-h"], ["--help"]):
        print(__doc__.strip())
        return 0
    options = read_options(words)
    return write(options.out, options.deb) if options.verify is None else verify(options.verify)
