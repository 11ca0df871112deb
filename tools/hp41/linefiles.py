"""The files of a crate with theorems about programs: a specification, a theorem and a proof for each label with claims."""
from __future__ import annotations

import os

from .linelemmas import LAW_NAMES, SHARED, shared
from .lineproofs import ProgramProof
from .linetheorems import Program, spec_of
from .needed import trimmed
from .statements import CRATE

# The file with the theorems, which follow from the proofs and the laws.
THEOREMS = "Theorems"


def theorems_of(programs: list[Program]) -> str:
    """Returns the file with the theorems: that the lines of each program have the bytes that the bench has in memory, and what the program
    leaves."""
    rows = ["-- The theorems: the lines of each program have the bytes that the bench has in memory, and what the program leaves.",
            "use Rattle.std.proofs.Common.{refl}", "use Rattle.h41_reasoning_lines.proofs.Laws as laws"]
    for one in programs:
        rows += [f"use Rattle.{CRATE}.specs.Of_{one.name}.{{{one.name}_AreSpelled, {one.name}_Returns}}",
                 f"use Rattle.{CRATE}.proofs.Of_{one.name} as of_{one.name.lower()}"]
    laws = " ".join(f"laws.{name}" for name in LAW_NAMES.split())
    for one in programs:
        name = one.name.lower()
        rows += ["", f"pub lines_of_{name} : {one.name}_AreSpelled", f"lines_of_{name} = refl", "",
                 f"pub theorem_of_{name} : {one.name}_Returns", f"theorem_of_{name} = of_{name}.proved {laws}"]
    return "".join(f"{row}\n" for row in rows)


def write_crate(folder: str, programs: list[Program], title: str) -> dict[str, ProgramProof]:
    """Writes the crate into a folder. Returns the proofs by the paths of their files."""
    modules = "".join(f"pub mod Of_{one.name}\n" for one in programs)
    files = {"src/lib.rt": f"//! Theorems about the programs of {title}.\n#![tactic(auto)]\n",
             "specs/Lib.antt": modules, "proofs/Lib.antt": f"pub mod {SHARED}\n{modules}pub mod {THEOREMS}\n",
             f"proofs/{SHARED}.antt": shared(), f"proofs/{THEOREMS}.antt": theorems_of(programs)}
    proofs = {}
    for one in programs:
        proof = ProgramProof(one)
        files[f"specs/Of_{one.name}.antt"] = trimmed(spec_of(one))
        files[f"proofs/Of_{one.name}.antt"] = proof.text()
        proofs[f"proofs/Of_{one.name}.antt"] = proof
    for path, text in files.items():
        whole = os.path.join(folder, path)
        os.makedirs(os.path.dirname(whole), exist_ok=True)
        with open(whole, "w", encoding="utf-8") as file:
            file.write(text)
    return proofs
