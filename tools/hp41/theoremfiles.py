"""The files of a crate for the prover: a specification, a theorem and a proof for each label of a source that has claims."""
from __future__ import annotations

import os

from .activebanks import NUMBERS, words_text
from .codes import Code, Result
from .knowledge import FEWEST, MAIN_START
from .needed import trimmed
from .statements import CRATE, spec_of
from .symbols import REGISTERS
from .theorems import Proof


def write_crate(folder: str, code: Code, results: list[Result], title: str) -> dict[str, Proof]:
    """Writes the crate into a folder. Returns the proofs by the paths of their files."""
    labels = [result.label for result in results]
    files = {"src/lib.rt": f"//! Theorems about the functions of {title}.\n#![tactic(auto)]\n",
             "specs/Lib.antt": "".join(f"pub mod {name}\n" for name in ["Words", *(f"Of_{label}" for label in labels)]),
             "proofs/Lib.antt": "".join(f"pub mod {name}\n" for name in [*(["Kept"] if code.is_project else []),
                                                                         *(f"Of_{label}" for label in labels)]),
             "specs/Words.antt": project_words_of(code, title) if code.is_project else words_of(code, title)}
    if code.is_project:
        files["proofs/Kept.antt"] = kept_of(code)
    proofs = {}
    registers = max([FEWEST, *(result.knowledge.highest - MAIN_START + 1 for result in results)])
    for result in results:
        proof = Proof(code, result)
        files[f"specs/Of_{result.label}.antt"] = trimmed(spec_of(code, result))
        files[f"proofs/Of_{result.label}.antt"] = proof.text()
        proofs[f"proofs/Of_{result.label}.antt"] = proof
    for name, text in files.items():
        path = os.path.join(folder, name)
        os.makedirs(os.path.dirname(path), exist_ok=True)
        with open(path, "w", encoding="utf-8") as file:
            file.write(text.replace(REGISTERS, str(registers)))
    return proofs


def words_of(code: Code, title: str) -> str:
    """Returns the file of the words of a source alone."""
    return (f"-- The words of {title}, from {code.origin:04X} on.\n"
            "use Rattle.h41_reasoning.specs.Names.{ℕ, List, [], ◌∷◌}\n\n"
            f"abbrev pub module_words : List ℕ\nmodule_words = {words_text(code.banks[0])}\n")


def project_words_of(code: Code, title: str) -> str:
    """Returns the file of the words of a project, and of where they are."""
    rows = [f"-- The words of {title}, and where they are.",
            "use Rattle.h41_reasoning.specs.Names.{ℕ, List, [], ◌∷◌, PageMap, First, Second, Third, Fourth}",
            "use Rattle.h41_reasoning.specs.Plugged.{IsPlugged}"]
    for bank in code.banks:
        rows += ["", f"-- {bank.name}: bank {bank.number} of page {bank.page:X}, from {bank.page << 12:04X} on.",
                 f"abbrev pub words_{bank.name} : List ℕ", f"words_{bank.name} = {words_text(bank)}"]
    rows += ["", "-- The words are in the pages, whichever banks are active.", "pub record HasModule (pages : PageMap) : Type 0 where"]
    rows += [f"  pub at_{bank.name} : IsPlugged pages {bank.page} {NUMBERS[bank.number - 1]} words_{bank.name}" for bank in code.banks]
    return "\n".join([*rows, ""])


def kept_of(code: Code) -> str:
    """Returns the file with the proof that ENBANK keeps the words of a project."""
    names = ", ".join(["HasModule", *(f"words_{bank.name}" for bank in code.banks)])
    rows = ["-- Whichever bank is activated, the words are in the pages.",
            "use Rattle.h41_reasoning.specs.Names.{ℕ, PageMap, with_chosen, Bank, First, Second, Third, Fourth}",
            "use Rattle.h41_reasoning.proofs.Plugged.{plugged_still}", f"use Rattle.{CRATE}.specs.Words.{{{names}}}", "",
            "pub module_kept : (pages : PageMap) (page : ℕ) (bank : Bank) → HasModule pages → HasModule (with_chosen pages page bank)",
            "module_kept pages page bank has = record {"]
    rows += [f"  at_{one.name} = plugged_still pages {one.page} page {NUMBERS[one.number - 1]} bank words_{one.name} has.at_{one.name};"
             for one in code.banks]
    return "\n".join([*rows, "}", ""])
