"""The theorem of a function as the prover reads it: what it requires, and what the function leaves."""
from __future__ import annotations

from .activebanks import NUMBERS, PAGES, pages_text
from .claims import AnyClaim, Atom, Decimal, Named, Others, Sum
from .codes import ADDRESSES, Code, Result, known_at_start, negative_free, plain, value_of
from .symbols import OUTSIDE, REGISTERS, record, register_at, stack, start_of

RELATIONS = {"=": "≡", "<": "<", "<=": "≤", "<>": "≢"}
CRATE = "module"

# What the files of a crate can name. All of it is in the crate h41_reasoning, which passes names of other crates on, because the prover
# needs longer to start for each library that a crate names.
IMPORTS = """\
use Rattle.h41_reasoning.specs.Names.{◌≡◌, ◌≢◌, ℕ, suc, pos, negsuc, ◌+◌, ◌-◌, ◌*◌, ◌/◌, ◌%◌, ◌^◌, ◌<◌, ◌≤◌, ◌⊎◌}
use Rattle.h41_reasoning.specs.Names.{Bool, true, false, not, List, [], ◌∷◌, length, slice_index, slice_set}
use Rattle.h41_reasoning.specs.Names.{le_z_yes, bit_and, bit_or}
use Rattle.h41_reasoning.specs.Names.{DifferenceInto, SumInto, carry_digit, copy_of, is_different, is_less, is_nonzero}
use Rattle.h41_reasoning.specs.Names.{shifted_left, shifted_right, zeros, number_of, IsRegister}
use Rattle.h41_reasoning.specs.Names.{first_place, last_place, places, register_places}
use Rattle.h41_reasoning.specs.Names.{All, AtPointer, ExponentSign, Mantissa, MantissaSign, PToQ, SignAndExponent, ToPointer, P, Q}
use Rattle.h41_reasoning.specs.Names.{IsWhole, is_closed, is_status_set, with_status, digits_and, digits_or, rotated_register, Nut}
use Rattle.h41_reasoning.specs.Names.{Decimal, Hexadecimal, RegisterMap, register_at, with_register, Carry, NoCarry}
use Rattle.h41_reasoning.specs.WordNumbers as words
use Rattle.h41_reasoning.specs.Operations as operations
use Rattle.h41_reasoning.specs.Transfers as transfers
use Rattle.h41_reasoning.proofs.Names.{refl, ap, subst, sym, ◌∙◌, inl, inr, arith, rules, held_at, register_set}
use Rattle.h41_reasoning.proofs.Laws.{straight, arithmetic, sums, differences, replaced, at_a_place, read_status, other_status}
use Rattle.h41_reasoning.proofs.Laws.{reads, keeps}
use Rattle.h41_reasoning.specs.WordRuns.{StepsTo}
use Rattle.h41_reasoning.specs.Decimals.{IsDecimal}
use Rattle.h41_reasoning.specs.Memory.{HasMemory}
use Rattle.h41_reasoning.specs.Runs.{HasWords, Reaches, Takes}
use Rattle.h41_reasoning.proofs.Bytes.{and_at_least, and_at_most_a, and_at_most_c, byte_in_status, or_at_least_a, or_at_least_c}
use Rattle.h41_reasoning.proofs.Bytes.{or_at_most, status_10_kept, status_11_kept, status_12_kept, status_13_kept, status_8_kept}
use Rattle.h41_reasoning.proofs.Bytes.{status_9_kept, status_bits}
use Rattle.h41_reasoning.proofs.Changes.{copy_digit}
use Rattle.h41_reasoning.proofs.Decimals.{below_ten, decimal_copied, decimal_difference, decimal_digit, decimal_part, decimal_parts}
use Rattle.h41_reasoning.proofs.Decimals.{decimal_sum, digit_in_both, zeros_decimal}
use Rattle.h41_reasoning.proofs.Memory.{address_is, main_there, memory_kept, status_there}
use Rattle.h41_reasoning.proofs.OneWord.{address_selected, and_taken, data_read, data_written, or_taken, register_read}
use Rattle.h41_reasoning.proofs.OneWord.{register_written, status_byte_cleared}
use Rattle.h41_reasoning.proofs.Changes.{carry_at_most, copy_keeps, copy_number, either, left_digit, left_keeps, left_low, less_number}
use Rattle.h41_reasoning.proofs.Changes.{loaded_digit, loading_keeps, not_less_number, one_digit, right_digit, right_keeps, right_top}
use Rattle.h41_reasoning.proofs.Changes.{same_numbers, word_digit_0, word_digit_1, word_digit_2, word_keeps, word_number}
use Rattle.h41_reasoning.proofs.Differences.{different_numbers}
use Rattle.h41_reasoning.proofs.FieldWords.{a_added_to_c, a_decremented, a_incremented, b_added_to_a, b_subtracted_from_a, c_added_to_a}
use Rattle.h41_reasoning.proofs.FieldWords.{c_complemented, c_decremented, c_doubled, c_incremented, c_negated, c_subtracted_from_a}
use Rattle.h41_reasoning.proofs.FieldWords.{c_taken_from_a, operated}
use Rattle.h41_reasoning.proofs.Jumps.{long_jump_passed, long_jump_taken, return_passed, return_taken, returned, short_jump_passed}
use Rattle.h41_reasoning.proofs.Jumps.{short_jump_taken}
use Rattle.h41_reasoning.proofs.Numbers.{some_number, zero_number, zeros_number, zeros_register}
use Rattle.h41_reasoning.proofs.OneWord.{battery_tested, decimal_set, digit_loaded, hexadecimal_set, nothing_done, pointer_down}
use Rattle.h41_reasoning.proofs.OneWord.{pointer_selected}
use Rattle.h41_reasoning.proofs.OneWord.{pointer_set, pointer_tested, pointer_up, pointers_compared, registers_cleared, rotated}
use Rattle.h41_reasoning.proofs.OneWord.{status_cleared}
use Rattle.h41_reasoning.proofs.OneWord.{status_set, status_tested, transferred}
use Rattle.h41_reasoning.specs.Rounds.{AfterRound}
use Rattle.h41_reasoning.proofs.Rounds.{at_end, by_step, counts_down, exactly, in_turn, loops_end, more_suffice, takes_in_turn}
use Rattle.h41_reasoning.proofs.Rounds.{takes_none, takes_step}
use Rattle.h41_reasoning.proofs.Spans.{below, kept_above, kept_below, parts}
use Rattle.h41_reasoning.proofs.TwoWords.{load_immediate}
"""
SPEC_IMPORTS = """\
use Rattle.h41_reasoning.specs.Names.{◌≡◌, ◌≢◌, ℕ, ◌+◌, ◌*◌, ◌%◌, ◌<◌, ◌≤◌, Bool, true, false, List, [], ◌∷◌}
use Rattle.h41_reasoning.specs.Names.{carry_digit, number_of, P, Q, IsWhole, is_closed, is_status_set, Nut, Decimal, Hexadecimal}
use Rattle.h41_reasoning.specs.Names.{register_at}
use Rattle.h41_reasoning.specs.Decimals.{IsDecimal}
use Rattle.h41_reasoning.specs.Memory.{HasMemory}
use Rattle.h41_reasoning.specs.Runs.{HasWords, Reaches, Takes}
"""
# What the files about a project name too.
PROJECT_SPEC_IMPORTS = """\
use Rattle.h41_reasoning.specs.Names.{chosen_at, with_chosen}
use Rattle.h41_reasoning.specs.Names.{First, Second, Third, Fourth}
"""
PROJECT_IMPORTS = f"""\
{PROJECT_SPEC_IMPORTS}use Rattle.h41_reasoning.proofs.Banks.{{bank_active, bank_again}}
use Rattle.h41_reasoning.proofs.OneWord.{{bank_enabled}}
use Rattle.h41_reasoning.proofs.Plugged.{{chosen_elsewhere, chosen_there, plugged_some, plugged_words}}
"""
UNFOLDING = "unfolding words.number_of first_place last_place places register_places"
RETURNS = ("r0", "r1", "r2", "r3")


def atom_text(atom: Atom, now: str, before: str = "s") -> str:
    """Returns an atom as a term; `now` is the state after the function, and `before` the one before it."""
    state, name = before if atom.old else now, atom.name.lower()
    if atom.lo is not None:
        register = f"{state}.processor.{name}" if atom.address is None else f"({register_at(f'{state}.ram', atom.address)})"
        return f"number_of {atom.base} {register} {atom.lo} {atom.hi}"
    special = {"CY": f"carry_digit {state}.processor.carry", "ST": f"({state}.processor.status % 256)",
               "RAM": f"{state}.processor.selected"}
    if atom.name not in special and atom.name.startswith("S"):
        return f"carry_digit (is_status_set {atom.name[1:]} {state}.processor)"
    return special.get(atom.name, f"{state}.processor.{name}")


def sum_text(one: Sum, now: str, before: str = "s") -> str:
    """Returns a sum without negative terms as a term."""
    parts = [f"{'' if many == 1 else f'{many} * '}{atom_text(atom, now, before)}" for many, atom in one.parts]
    return " + ".join([*parts, *([str(one.constant)] if one.constant or not parts else [])])


def claim_text(claim: AnyClaim, now: str, before: str = "s") -> str:
    """Returns a claim as a type."""
    if isinstance(claim, Named) and claim.name == "BANK":
        return f"chosen_at {now}.pages {claim.page} ≡ {NUMBERS[int(claim.value) - 1]}"
    if isinstance(claim, Named):
        name, value = value_of(claim) or ("", "")
        return f"{now}.processor.{name} ≡ {value}"
    if isinstance(claim, Decimal):
        return f"IsDecimal {atom_text(claim.atom, now, before).removeprefix(f'number_of {claim.atom.base} ')}"
    if isinstance(claim, Others):
        apart = "".join(f"address ≢ {one:#05x} → " for one in claim.addresses)
        return f"(address : ℕ) → {apart}register_at {now}.ram address ≡ register_at s.ram address"
    left, right = negative_free(claim.left, claim.right)
    relation = claim.relation
    if relation in (">", ">="):
        left, right, relation = right, left, {">": "<", ">=": "<="}[relation]
    return f"{sum_text(left, now, before)} {RELATIONS[relation]} {sum_text(right, now, before)}"


def done_name(label: str) -> str:
    """Returns the name of what a function has done."""
    return f"{label}_Done"


def only_text(result: Result, of: str = "s", t: str = "t") -> str:
    """Returns the state after a function, in which everything that it does not change is as before."""
    parts = {name: known if known is not None else start_of(name, t) for name, known in sorted(result.changed.items())}
    outside = {name: parts.pop(name) for name in OUTSIDE if name in parts}
    if result.banks.end:
        outside[PAGES] = pages_text(f"{of}.{PAGES}", result.banks.end)
    parts |= {"carry": "false", "pc": "r0", "returns": stack(result.returns)}
    return record(of, {"processor": record(f"{of}.processor", parts), **outside})


def requirements(result: Result) -> list[tuple[str, str]]:
    """Returns the requirements of a theorem on the state, as names and types."""
    found = [(f"is_{name}", f"s.processor.{name} ≡ {value}") for name, value in known_at_start(result.contract).items()]
    return [*found, *((f"required_{at}", claim_text(claim, "s")) for at, claim in enumerate(plain(result.contract.requires), 1))]


def reached(result: Result) -> str:
    """Returns the conclusion of a theorem."""
    word = "Takes" if result.is_exact else "Reaches"
    return f"{word} ({sum_text(result.bound, 's')}) s ({done_name(result.label)} s r0 r1 r2 r3)"


def lost_returns(result: Result) -> list[str]:
    """Returns the names of return addresses of which nothing is known after a function."""
    return [name for name in result.returns if name.startswith("return_")]


def pages_of(code: Code, result: Result) -> list[tuple[str, str]]:
    """Returns the requirements of a theorem on pages, as names and types: the words are there, and in a project, which banks are
    active."""
    if not code.is_project:
        return [("has", f"HasWords s.pages {code.origin:#06x} module_words")]
    return [("has", "HasModule s.pages"), *((f"active_0_{page}", f"chosen_at s.pages {page} ≡ {NUMBERS[number - 1]}")
                                            for page, number in sorted(result.banks.start.items()))]


def spec_of(code: Code, result: Result) -> str:
    """Returns the specification of a function."""
    label, address = result.label, code.labels[result.label] % ADDRESSES
    where = f"{address:04X}" if not code.is_project else f"{address:04X} in bank {result.banks.number} of page {result.banks.page:X}"
    rows = [f"-- What {label} at {where} leaves, and in how many steps it returns.",
            SPEC_IMPORTS + (PROJECT_SPEC_IMPORTS if code.is_project else ""),
            f"use Rattle.{CRATE}.specs.Words.{{{'HasModule' if code.is_project else 'module_words'}}}", "",
            f"pub record {done_name(label)} (s : Nut) (r0 r1 r2 r3 : ℕ) (t : Nut) : Type 0 where", "  pub whole : IsWhole t",
            *(f"  pub {name} : ℕ" for name in lost_returns(result)), f"  pub only : t ≡ {only_text(result)}"]
    if "ram" in result.changed:
        rows.append(f"  pub memory : HasMemory {REGISTERS} t.ram")
    for at, claim in enumerate(result.contract.ensures, 1):
        rows += [f"  -- {claim.text}", f"  pub claim_{at} : {claim_text(claim, 't')}"]
    rows += ["", f"abbrev pub {label}_Returns : Type 0", f"{label}_Returns =", "    (s : Nut) (r0 r1 r2 r3 : ℕ) → IsWhole s",
             f"    → s.processor.pc ≡ {address:#06x} → {' → '.join(text for _, text in pages_of(code, result))}",
             *([f"    → HasMemory {REGISTERS} s.ram"] if result.uses_memory else []),
             "    → s.processor.returns ≡ r0 ∷ r1 ∷ r2 ∷ r3 ∷ [] → is_closed r0 ≡ false"]
    rows += [f"    → {text}" for _, text in requirements(result)]
    return "\n".join([*rows, f"    → {reached(result)}", ""])
