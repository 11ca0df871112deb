"""Compares the tables of docs/CONTRIBUTING.md with the files that name their samples, or lists the files that name a sample.

usage: tools/touched
       tools/touched SAMPLE..

A SAMPLE is a variant of a type, such as `View::Flags`, or a word. A variant is searched in the code of the crates: in Rust
sources that name it or declare its type, and in definitions and proofs that name it by an import or in a match.
A word is searched there too, and in the programs of tools/ and .ci/. Comments do not count.

Without a SAMPLE, each section of docs/CONTRIBUTING.md with a line `*Sample:*` is compared: its table must list every file that
names the sample, and every listed file must exist. The last line counts the files.

Status 0: the tables are complete, or a file names the SAMPLE. 1: a table is not complete, or no file names it."""
import glob
import os
import re
import sys

from .. import TOP

TABLES = "docs/CONTRIBUTING.md"
PARTS = ("src", "specs", "proofs")


def text_of(path: str) -> str:
    """Returns the text of a file, by its path from the top of the repository."""
    with open(f"{TOP}/{path}", encoding="utf-8", errors="replace") as file:
        return file.read()


def sources() -> dict[str, str]:
    """Returns the code, definitions and proofs of the crates, without comments, by path."""
    found = {}
    for part in PARTS:
        for path in glob.glob(f"crates/*/{part}/**/*.*", root_dir=TOP, recursive=True):
            if path.endswith((".rt", ".antt")):
                found[path] = re.sub(r"//.*" if path.endswith(".rt") else r"--.*", "", text_of(path))
    return found


def programs() -> dict[str, str]:
    """Returns the programs of tools/ and .ci/, by path."""
    patterns = ("tools/*", "tools/hp41/**/*.py", ".ci/*")
    paths = sorted(path for pattern in patterns for path in glob.glob(pattern, root_dir=TOP, recursive=True))
    kept = [path for path in paths if os.path.isfile(f"{TOP}/{path}")
            and not path.endswith((".md", ".txt", ".c", ".examples", ".exceptions", ".rows", ".crate"))]
    return {path: text_of(path) for path in kept}


def names_in_rust(text: str, kind: str, variant: str) -> bool:
    """Returns whether a source in Rust names a variant or declares it."""
    declared = re.search(rf"\benum {kind}\b[^{{]*\{{(.*?)^\s*\}}$", text, re.S | re.M)
    return bool(re.search(rf"\b{kind}::{variant}\b", text) or declared and re.search(rf"\b{variant}\b", declared[1]))


def names_in_antt(text: str, kind: str, variant: str, is_own: bool) -> bool:
    """Returns whether a file of definitions or proofs names a variant. In the crates of the section, an arm of a match counts too."""
    for names, module in re.findall(rf"^use [\w.]*\.{kind}\.TheVariants(?:\.{{([^}}]*)}}| as (\w+))$", text, re.M):
        if names and re.search(rf"\b{variant}\b", names) or module and re.search(rf"\b{module}\.{variant}\b", text):
            return True
    return bool(is_own and re.search(rf"\bin-{variant}\b", text))


def naming(sample: str, own: set[str], code: dict[str, str], tools: dict[str, str]) -> list[str]:
    """Returns the files that name a sample. `own` are the crates in which arms of a match count."""
    kind, colons, variant = sample.partition("::")
    if not colons:
        word = re.compile(rf"(?<![\w/]){re.escape(sample)}(?!\w)")
        return sorted(path for path, text in {**code, **tools}.items() if word.search(text) and path != sample)
    return sorted(
        path for path, text in code.items()
        if (names_in_rust(text, kind, variant) if path.endswith(".rt")
            else names_in_antt(text, kind, variant, path.split("/")[1] in own)))


def listed_in(section: str) -> tuple[set[str], set[str]]:
    """Returns the files that the tables of a section list, and the crates that they name."""
    files, crates = set(), set()
    for row in re.findall(r"^\|(.*)\|$", section, re.M):
        cells = [cell.strip() for cell in re.split(r"(?<!\\)\|", row)]
        if len(cells) != 3:
            continue
        crates |= set(re.findall(r"\bh41_\w+", cells[1]))
        for crate in re.findall(r"\bh41_\w+", cells[1]):
            files |= {f"crates/{crate}/{path}" for path in re.findall(r"`((?:src|specs|proofs)/[\w/+.]*\.\w+)`", cells[2])}
        for folder in re.findall(r"`(tools(?:/hp41)?|\.ci)/`", cells[1]):
            files |= {f"{folder}/{name}" for name in re.findall(r"`([\w/-]+(?:\.py)?)`", cells[2])
                      if os.path.isfile(f"{TOP}/{folder}/{name}")}
    return files, crates


def compare() -> tuple[int, int]:
    """Compares each section with its samples. Returns how many files are right and how many are wrong."""
    code, tools = sources(), programs()
    good = bad = 0
    text = text_of(TABLES)
    for begin in re.finditer(r"^### ", text, re.M):
        section = re.split(r"^### ", text[begin.end():], maxsplit=1, flags=re.M)[0]
        found = re.search(r"^\*Sample:\*(.*)", section, re.M)
        if not found:
            continue
        title, place = section.split("\n")[0], f"touched: {TABLES}:{text[:begin.start()].count(chr(10)) + 1}"
        listed, crates = listed_in(section.split("\n## ")[0])
        for path in sorted(path for path in listed if not os.path.exists(f"{TOP}/{path}")):
            bad += 1
            print(f"{place}: '{title}' lists {path}, which does not exist: remove it from the table")
        for sample in re.findall(r"`([^`]*)`", found[1]):
            named = naming(sample, crates, code, tools)
            if not named:
                bad += 1
                print(f"{place}: '{title}': no file names the sample {sample}: expected a variant such as View::Flags, or a word of the "
                      "code")
            for path in named:
                good, bad = (good + 1, bad) if path in listed else (good, bad + 1)
                if path not in listed:
                    print(f"{place}: '{title}' does not list {path}, which names {sample}: add it to the table")
    return good, bad


def main(words: list[str]) -> int:
    """Compares the tables, or lists the files that name samples. Returns the status."""
    if words in (["--help"], ["-h"]):
        print(__doc__.strip())
        return 0
    if words:
        code, tools = sources(), programs()
        crates = {path.split("/")[1] for sample in words for path in naming(sample, set(), code, {})}
        found = sorted({path for sample in words for path in naming(sample, crates, code, tools)})
        if not found:
            print(f"touched: no file names '{' '.join(words)}': expected a variant such as View::Flags, or a word of the code",
                  file=sys.stderr)
            return 1
        print("\n".join(found))
        return 0
    good, bad = compare()
    print(f"{good} passed, {bad} failed")
    if bad or not good:
        return 1
    return 0
