"""The files of a release, and the archive that has them. The same commit and the same program always give the same bytes."""
import ast
import gzip
import hashlib
import io
import keyword
import os
import re
import shutil
import subprocess
import tarfile
import zlib
from dataclasses import dataclass
from typing import Iterator

from . import TOP
from .crates import NAME, crates_of_program
from .decks import Failure
from .documents import codes_of, section_of, tables_of
from .session import why_no_program

SYSTEM = "linux-x86_64"
PROGRAM = f"{TOP}/crates/{NAME}/out/{NAME}"
VERDICTS = f"{TOP}/crates/{NAME}/out/verdicts"
NOT_BUILT = 70

# What a release has of the repository. For the crates these are the documents and the definitions.
PATHS = ("README.md", "CHANGELOG.md", "CITATION.cff", "bench", "install", "completions", "crates.txt", "docs", "examples", "rows", "tools",
         "crates")
OF_CRATES = re.compile(r"crates/\w+/(?:README\.md|specs/.*)")

# Tools that need the sources, the kit or the repository itself.
COMMANDS_FOR_CONTRIBUTORS = ("completions", "gate-times", "index", "layers", "man", "places", "prove", "release", "touched", "try",
                             "wrong-bodies")


def module_of(tool: str) -> str:
    """Returns the path of the module that has the help and the work of a tool. For `import`, for example, it is `import_.py` of
    tools/hp41/commands/, because a module cannot have the name of a keyword."""
    name = tool.replace("-", "_")
    return f"tools/hp41/commands/{name}{'_' if keyword.iskeyword(name) else ''}.py"


FOR_CONTRIBUTORS = {*map(module_of, COMMANDS_FOR_CONTRIBUTORS),
                    *(f"tools/{name}" for name in (*COMMANDS_FOR_CONTRIBUTORS, "proof-seconds", "hp41/releases.py", "hp41/packages.py"))}

INTRODUCTION = """\
This is a release of the HP-41 bench. README.md is the introduction.

version: {version}
system: {system}
commit: {commit}
date: {date}
kit: {kit}
program: program/{name}, SHA-256 {checksum}

Who proved it: the prover of this kit checked every function of the crates below against its
contract. Each line is the last one that the prover printed for the crate. The program was built
from the crates up to h41_bench; those after it state laws about them. `trusted` means that the
kit's own logic, libraries and statements were used as they were built. docs/PROOFS.md says what
the contracts promise.

{verdicts}

Not proved but assumed: the contracts of {count} functions written in C (`axioms={axioms}` above).
docs/PROOFS.md says what each contract assumes.

{assumed}

To see for yourself: check out this commit of the repository, prove it with `./bench prove --all`,
and compare this archive with `tools/release --verify FILE`. `sha256sum -c MANIFEST` compares the
unpacked files with the archive.
"""

# What is printed above the names of crates for which no line of the prover is stored.
NOT_SAID = """\
No line of the prover was stored for these crates when the release was made. So this file does not
say whether they are proved; docs/PROOFS.md relies on them too."""
NOT_USED = "The program does not depend on them: they are crates of laws."


@dataclass
class File:
    """A file of a release: its path, its bytes, and whether it is a program."""
    path: str
    data: bytes
    is_program: bool = False


def git(*words: str) -> bytes:
    """Returns what git prints for some words, in the repository."""
    try:
        ran = subprocess.run(["git", "-C", TOP, *words], stdin=subprocess.DEVNULL, capture_output=True, check=False)
    except OSError as error:
        raise Failure(f"git cannot be started: {error.strerror}: install git", NOT_BUILT) from error
    if ran.returncode != 0:
        raise Failure(f"{TOP}: git {words[0]} failed: {ran.stderr.decode(errors='replace').strip()}", NOT_BUILT)
    return ran.stdout


def check_clean() -> None:
    """Checks that the files of the repository are those of its commit."""
    changed = git("status", "--porcelain", "--untracked-files=no").decode(errors="replace").splitlines()
    if changed:
        raise Failure(f"uncommitted changes in {len(changed)} file{'s' if changed[1:] else ''}, for example {changed[0][3:]}: commit them "
                      "first, because a release is made from a commit", NOT_BUILT)


def check_built() -> None:
    """Checks that the proved program was built from the sources of the commit."""
    ready = subprocess.run([f"{TOP}/bench", "prove", "--check"], stdin=subprocess.DEVNULL, capture_output=True, check=False)
    if ready.returncode != 0:
        raise Failure(why_no_program(ready, "a release needs the proved program: build it with ./bench prove --all"), NOT_BUILT)


def said_version() -> tuple[str, str]:
    """Returns the version of the program, and the line of the kit that proved it, as the program prints them."""
    ran = subprocess.run([PROGRAM, "--version"], stdin=subprocess.DEVNULL, stdout=subprocess.PIPE, check=False)
    found = re.fullmatch(r"bench ([0-9.]+), proved with (.*)\n", ran.stdout.decode(errors="replace"))
    if not found:
        raise Failure(f"{PROGRAM} --version: found {ran.stdout.decode(errors='replace')!r}, expected a version and a kit", NOT_BUILT)
    return found[1], found[2]


def verdicts() -> tuple[dict[str, str], list[str]]:
    """Returns the last lines of the prover for the crates, by crate, and the crates for whose present sources none is stored."""
    kept = {}
    if os.path.exists(VERDICTS):
        with open(VERDICTS, encoding="utf-8") as file:
            for line in file:
                name, stamp, verdict = line.rstrip("\n").split(" ", 2)
                kept[name, stamp] = verdict
    found: dict[str, str] = {}
    missing: list[str] = []
    if not shutil.which("rt"):
        raise Failure("rt, the command of the Rattle kit, is not on PATH: install the kit, see README.md", NOT_BUILT)
    for crate in crates_of_program(laws=True):
        stored = kept.get((crate.name, crate.stamp()))
        if stored:
            found[crate.name] = stored
        else:
            missing.append(crate.name)
    return found, missing


def program_crates() -> set[str]:
    """Returns the names of the crates from which the program is built."""
    return {crate.name for crate in crates_of_program()}


def assumed() -> list[str]:
    """Returns the names of the C functions whose contracts are assumed, from docs/PROOFS.md."""
    table = tables_of(section_of("PROOFS.md", "C functions"))[0]
    return [name for _, names, _ in table for name in codes_of(names)]


def wrapped(names: list[str]) -> str:
    """Returns names as lines of at most 96 characters."""
    lines = [""]
    for name in names:
        if len(lines[-1]) + len(name) > 94:
            lines.append("")
        lines[-1] += f"  {name}" if not lines[-1] else f" {name}"
    return "\n".join(lines)


def manual_page(name: str, text: str, version: str) -> str:
    """Returns the manual page of an installed tool, which has the text of its help."""
    head, _, rest = text.strip().partition("\n")
    lines = [line.replace("\\", "\\e").replace("-", "\\-") for line in [head, *rest.strip("\n").split("\n")]]
    lines = [f"\\&{line}" if line[:1] in (".", "'") else line for line in lines]
    return "\n".join(['.\\" Written by tools/release from the help of the tool.',
                      f'.TH BENCH-{name.upper()} 1 "" "bench {version}" "An HP\\-41 bench"', ".SH NAME",
                      f"bench\\-{name} \\- {lines[0][0].lower()}{lines[0][1:].rstrip('.')}", ".SH DESCRIPTION",
                      f"bench\\-{name} is tools/{name} of the bench.", ".PP", ".nf", *lines[1:], ".fi", ".SH SEE ALSO", ".BR bench (1)",
                      ""])


class Release:
    """What a release of the present commit has."""

    def __init__(self) -> None:
        """Reads the files of the commit and the program. Raises Failure if there is no proved program for it."""
        check_clean()
        check_built()
        self.version, self.kit = said_version()
        shown = git("show", "-s", "--format=%H%n%ct%n%cI%n%cD%n%an <%ae>", "HEAD").decode().split("\n")
        self.commit, self.seconds, self.date, self.mail_date, self.maintainer = shown[0], int(shown[1]), shown[2], shown[3], shown[4]
        self.name = f"hp41-bench-{self.version}-{SYSTEM}"
        self.verdicts, self.missing = verdicts()
        self.files = self.collected()

    def collected(self) -> list[File]:
        """Returns the files, sorted by path, with the manifest, which has the checksums of all others."""
        with open(PROGRAM, "rb") as opened:
            program = opened.read()
        files = [*self.committed(), File(f"program/{NAME}", program, True)]
        for file in [file for file in files if file.is_program and file.path.startswith("tools/")]:
            name = file.path.partition("/")[2]
            module = next(other for other in files if other.path == module_of(name))
            text = ast.get_docstring(ast.parse(module.data)) or ""
            files.append(File(f"docs/man/bench-{name}.1", manual_page(name, text, self.version).encode()))
        files.append(File("RELEASE", self.text(program).encode()))
        files.sort(key=path_of)
        lines = [f"{hashlib.sha256(file.data).hexdigest()}  {file.path}\n" for file in files]
        return sorted([*files, File("MANIFEST", "".join(lines).encode())], key=path_of)

    def committed(self) -> Iterator[File]:
        """Yields the files that a release has of the commit."""
        listed = git("ls-tree", "--name-only", "HEAD").decode().split("\n")
        archive = git("archive", "--format=tar", "HEAD", "--", *(path for path in PATHS if path in listed))
        with tarfile.open(fileobj=io.BytesIO(archive)) as packed:
            for entry in packed:
                path = entry.name
                if not entry.isfile() or path in FOR_CONTRIBUTORS or path.startswith("crates/") and not OF_CRATES.fullmatch(path):
                    continue
                yield File(path, content_of(packed, entry), bool(entry.mode & 0o100))

    def text(self, program: bytes) -> str:
        """Returns the text of the file RELEASE."""
        lines = [f"{name}: {verdict}" for name, verdict in self.verdicts.items()]
        if self.missing:
            lines += ["", NOT_SAID, *([] if set(self.missing) & program_crates() else [NOT_USED]), wrapped(self.missing)]
        names = assumed()
        found = re.search(r"\baxioms=(\d+)", self.verdicts.get(NAME, ""))
        if found and int(found[1]) != len(names):
            raise Failure(f"docs/PROOFS.md names {len(names)} C functions, but the prover's line for {NAME} says axioms={found[1]}: "
                          "correct the document", NOT_BUILT)
        return INTRODUCTION.format(version=self.version, system=SYSTEM, commit=self.commit, date=self.date, kit=self.kit, name=NAME,
                                   checksum=hashlib.sha256(program).hexdigest(), verdicts="\n".join(lines).strip(), count=len(names),
                                   axioms=len(names), assumed=wrapped(names))

    def archive(self) -> bytes:
        """Returns the bytes of the archive: the files in the order of their paths, with the time of the commit and no owner."""
        packed = io.BytesIO()
        with tarfile.open(fileobj=packed, mode="w", format=tarfile.USTAR_FORMAT) as into:
            for file in self.files:
                entry = tarfile.TarInfo(f"{self.name}/{file.path}")
                entry.size, entry.mtime, entry.mode = len(file.data), self.seconds, 0o755 if file.is_program else 0o644
                into.addfile(entry, io.BytesIO(file.data))
        squeezed = io.BytesIO()
        with gzip.GzipFile(filename="", mode="wb", compresslevel=9, fileobj=squeezed, mtime=self.seconds) as out:
            out.write(packed.getvalue())
        return squeezed.getvalue()


def path_of(file: File) -> bytes:
    """Returns the sort key of a file."""
    return file.path.encode()


def content_of(packed: tarfile.TarFile, entry: tarfile.TarInfo) -> bytes:
    """Returns the bytes of a regular file in an archive."""
    file = packed.extractfile(entry)
    return file.read() if file else b""


def packed_files(path: str, data: bytes) -> dict[str, bytes]:
    """Returns the bytes of the files in an archive, which is at a path, by their paths without the first folder."""
    try:
        with tarfile.open(fileobj=io.BytesIO(data), mode="r:gz") as packed:
            return {entry.name.partition("/")[2]: content_of(packed, entry) for entry in packed if entry.isfile()}
    except (tarfile.TarError, EOFError, OSError, zlib.error) as error:
        raise Failure(f"{path}: not an archive of a release: {error}", 1) from error


def commit_of(files: dict[str, bytes]) -> str:
    """Returns the commit that an archive names; an empty text if it names none."""
    found = re.search(rb"^commit: (\w+)$", files.get("RELEASE", b""), re.M)
    return found[1].decode() if found else ""

