"""The laws and lemmas that proofs of theorems about programs cite."""
from __future__ import annotations

from .linetheorems import USED, Program
from .needed import trimmed
from .statements import CRATE

LAWS = "(itself : DecimalIsItsNearest) (registers : DecimalHasOneRegister) (decimals : RegisterHoldsDecimal) (lists : OneList)\n" \
       "    (fractions : FractionHasOneNearest) (quotients : QuotientHasOneNearest) (one_reading : ReadIsDetermined)\n" \
       "    (determined : RegisterIsDetermined)"
LAW_NAMES = "itself registers decimals lists fractions quotients one_reading determined"
LAW_TYPES = ("DecimalIsItsNearest → DecimalHasOneRegister → RegisterHoldsDecimal → OneList → FractionHasOneNearest → "
             "QuotientHasOneNearest → ReadIsDetermined → RegisterIsDetermined")

# For each function its row, the lemma of its result, and the lemma of a result that is out of range.
TWO = {"+": ("OfTwo twos.Sum Y X", "added", "sum_is_out"), "-": ("OfTwo twos.Difference Y X", "subtracted", "difference_is_out"),
       "*": ("OfTwo twos.Product Y X", "multiplied", "product_is_out"), "/": ("OfTwo twos.Quotient Y X", "divided", "quotient_is_out")}
ONE = {"X^2": ("OfTwo twos.Product X X", "squared", "square_is_out"), "SQRT": ("OfOne ones.Root X", "rooted", ""),
       "1/X": ("OfOne ones.Inverse X", "inverted", "inverse_is_out")}
SIMPLE = {"ENTER^": "enters", "X<>Y": "exchanges", "RDN": "rolls_down", "R^": "rolls_up"}

# For each test its condition, and the lemmas that its registers contain numbers and what it compares.
TESTS = {"X<Y?": ("rows.Below (rows.In X) (rows.In Y)", "comparable", "tells_below"),
         "X>Y?": ("rows.Below (rows.In Y) (rows.In X)", "comparable_turned", "tells_above"),
         "X<=Y?": ("rows.AtMost (rows.In X) (rows.In Y)", "comparable", "tells_at_most"),
         "X>0?": ("rows.Below rows.Nought (rows.In X)", "comparable_x", "tells_positive"),
         "X<0?": ("rows.Below (rows.In X) rows.Nought", "comparable_x", "tells_negative"),
         "X<=0?": ("rows.AtMost (rows.In X) rows.Nought", "comparable_x", "tells_not_positive"),
         "X=0?": ("rows.Same (rows.In X) rows.Nought", "", ""), "X=Y?": ("rows.Same (rows.In X) (rows.In Y)", "", ""),
         "X#0?": ("rows.Differ (rows.In X) rows.Nought", "", ""), "X#Y?": ("rows.Differ (rows.In X) (rows.In Y)", "", "")}

PROOF_USED = """use Rattle.std.proofs.Common.{refl, sym, ap, ◌∙◌, ◌+◌, ◌++◌, None, Some, subst, arith, inl, inr, Err, Result, zero, suc}
use Rattle.std.specs.Prelude.{not}
use Rattle.std.proofs.Math.Nat.{mul-le-mul, mul-le-mul_left}
use Rattle.h41_decimal.specs.Laws.{DecimalIsItsNearest, RegisterIsDetermined}
use Rattle.h41_decimal.specs.declared.fault.DecimalFault.{DecimalFault}
use Rattle.h41_decimal.specs.declared.fault.DecimalFault.TheVariants.{Data, Range}
use Rattle.h41_decimal.specs.declared.ten.Ten.TheVariants.{Zero}
use Rattle.h41_laws_words.specs.DecimalAnswers.{DecimalHasOneRegister, FractionHasOneNearest, QuotientHasOneNearest}
use Rattle.h41_laws_words.specs.DecimalAnswers.{RegisterHoldsDecimal}
use Rattle.h41_focal.specs.Destinations.{with_return}
use Rattle.h41_positions.specs.declared.position.Position.{Position}
use Rattle.h41_program.specs.Edits.{lines_of}
use Rattle.h41_program.specs.ProgramBytes.{final_position, program_bytes}
use Rattle.h41_program.specs.ProgramLaws.{OneList, ReadIsDetermined}
use Rattle.h41_program.specs.ProgramLines.{Reads}
use Rattle.h41_program.specs.Searches.{AnswersLocal, start_in}
use Rattle.h41_program.specs.declared.listed_line.ListedLine.{ListedLine}
use Rattle.h41_ram.specs.RegisterMap.{RegisterMap}
use Rattle.h41_rows.specs.Counters.{Down, Up}
use Rattle.h41_rows.specs.Places.{X, Y}
use Rattle.h41_rows.specs.Rows as rows
use Rattle.h41_rows.specs.Values.{IsRegisterOf, OfOne, OfTwo}
use Rattle.h41_rows.specs.declared.values.ValueOfOne.TheVariants as ones
use Rattle.h41_rows.specs.declared.values.ValueOfTwo.TheVariants as twos
use Rattle.h41_reasoning_lines.specs.ProgramStates.{with_content}
use Rattle.h41_reasoning_lines.proofs.Calls.{becomes, call_then, calls_local, calls_named, content_there, go_then, goes_to_named}
use Rattle.h41_reasoning_lines.proofs.Calls.{kept_but, lines_there, memory_there}
use Rattle.h41_reasoning_lines.proofs.Calls.{name_there, one_return_more, part_of, program_there, rest_lines, same_stack, size_there}
use Rattle.h41_reasoning_lines.proofs.Calls.{recontented, sound_there}
use Rattle.h41_reasoning_lines.proofs.Computing.{added, comparable, comparable_turned, comparable_x, divided, inverted, made_absolute}
use Rattle.h41_reasoning_lines.proofs.Computing.{made_fraction, made_negative, made_unit, made_whole, multiplied, number_there, reduced}
use Rattle.h41_reasoning_lines.proofs.Computing.{rooted, squared}
use Rattle.h41_reasoning_lines.proofs.Computing.{subtracted, tells_above, tells_at_most, tells_below, tells_negative}
use Rattle.h41_reasoning_lines.proofs.Computing.{tells_not_positive, tells_positive}
use Rattle.h41_reasoning_lines.proofs.Counters.{continues, continues_down, count_is, counter_ten, down_is, fraction_is_counter}
use Rattle.h41_reasoning_lines.proofs.Counters.{no_fraction, number_is, passes}
use Rattle.h41_reasoning_lines.proofs.Counters.{number_up_whole, passes_down, passes_whole}
use Rattle.h41_reasoning_lines.proofs.Counting.{counts_down, counts_to_zero}
use Rattle.h41_reasoning_lines.proofs.Errors.{difference_is_out, inverse_is_out, never_data, no_inverse, no_quotient, product_is_out}
use Rattle.h41_reasoning_lines.proofs.Errors.{quotient_is_out, square_is_out, sum_is_out}
use Rattle.h41_reasoning_lines.proofs.Labels.{found_back, found_onward, label_after, label_at_end, label_here, no_end, none_late}
use Rattle.h41_reasoning_lines.proofs.Labels.{position_next}
use Rattle.h41_reasoning_lines.proofs.Listed.{IsListed, in_turn_to_end}
use Rattle.h41_reasoning_lines.proofs.Loops.{goes_past, goes_round}
use Rattle.h41_reasoning_lines.proofs.ProgramStates.{begins, other_content}
use Rattle.h41_reasoning_lines.proofs.ProgramSteps.{changes_sign, clear_there, clears_stack, clears_x, ends_back, enters}
use Rattle.h41_reasoning_lines.proofs.ProgramSteps.{enters_number, exchanges, fails, own_lifted, pi_ten, recalls_pi}
use Rattle.h41_reasoning_lines.proofs.ProgramSteps.{passes_global, passes_label, recalls, recalls_last, returns_back, rolls_down, rolls_up}
use Rattle.h41_reasoning_lines.proofs.ProgramSteps.{goes_to, only_lifts, stores, tests_false, tests_true, works_on_one, works_on_two}
use Rattle.h41_reasoning_lines.proofs.RegisterSteps.{computes_by, data_error_by, direct_there, exchanges_by, index_counter}
use Rattle.h41_reasoning_lines.proofs.RegisterSteps.{index_whole, indirect_there, out_of_range_by, recalls_by, stores_by}
use Rattle.h41_reasoning_lines.proofs.Rounds.{by_last, line_then, more_lines_suffice}
use Rattle.h41_reasoning_lines.proofs.SignedDecimals.{absolute, negative, unit}
use Rattle.h41_reasoning_lines.proofs.Stepping.{after_line, before_line, own_place}
use Rattle.h41_reasoning_lines.proofs.Wholes.{modulo_some, whole_ten}
use Rattle.h41_reasoning_lines.proofs.WholeSteps.{difference_whole, is_some, is_zero, le_false, le_true, lt_false, lt_true, sum_whole}
use Rattle.h41_reasoning_lines.proofs.WholeSteps.{typed_decimals, typed_whole, typed_zero, whole_part, whole_remainder}
use Rattle.std.proofs.lemmas.Bool.{cases_lt}
"""

# What the proofs of all programs of a crate share, and the module with it.
SHARED = "Values"
HELPERS = """pub register_of : DecimalHasOneRegister → (number : Ten) → (register : List ℕ) × IsRegisterOf (units number) register
register_of registers number =
    let found = registers number in
    (found.answer, record { valid = found.right.valid; holds = found.right.holds })

-- A whole number, as the calculator writes it.
pub record WholeIn (n : ℕ) : Type 0 where
  pub ten : Ten
  pub units_is : units ten ≡ pos (n * one)
  pub register : List ℕ
  pub of_ten : IsRegisterOf (units ten) register
  pub is : IsRegisterOf (pos (n * one)) register

pub whole_in : DecimalHasOneRegister → (n : ℕ) → n < 10 ^ 10 → WholeIn n
whole_in registers n small =
    let ten = whole_ten n small in
    let found = register_of registers ten.0 in
    record {
      ten = ten.0;
      units_is = ten.1;
      register = found.0;
      of_ten = found.1;
      is = subst (λ (z : ℤ). IsRegisterOf z found.0) ten.1 found.1;
    }

-- The counter of a loop, as the calculator writes it.
pub record CounterIn (i f : ℕ) : Type 0 where
  pub ten : Ten
  pub units_is : units ten ≡ pos (i * one + f * 10 ^ 105)
  pub register : List ℕ
  pub of_ten : IsRegisterOf (units ten) register
  pub is : IsRegisterOf (pos (i * one + f * 10 ^ 105)) register

pub counter_in : DecimalHasOneRegister → (i f : ℕ) → i < 10 ^ 7 → f < 1000 → CounterIn i f
counter_in registers i f small few =
    let ten = counter_ten i f small few in
    let found = register_of registers ten.0 in
    record {
      ten = ten.0;
      units_is = ten.1;
      register = found.0;
      of_ten = found.1;
      is = subst (λ (z : ℤ). IsRegisterOf z found.0) ten.1 found.1;
    }

-- The rounds of a loop end, because a number falls.
pub by_rounds : (Round : ℕ → Type 0) → ((left : ℕ) → ((fewer : ℕ) → fewer < left → Round fewer) → Round left) → (left : ℕ) → Round left
by_rounds Round round left = from (suc left) left (omega arith)
  where
    from : (bound left : ℕ) → left < bound → Round left
    from zero left less = absurd (omega (arith, less))
    from (suc bound) left less = round left (λ (fewer : ℕ) under. from bound fewer (omega (arith, less, under)))

-- What is both true and false.
pub clash : (truth : Bool) → truth ≡ true → truth ≡ false → ⊥
clash truth is_so is_not = let never : true ≡ false = sym is_so ∙ is_not in cc

pub turned : (truth on : Bool) → truth ≡ on → not truth ≡ not on
turned truth on is = ap not is

-- The negative and the absolute value of the number in a register, and 1 with its sign.
module _ (itself : DecimalIsItsNearest) (decimals : RegisterHoldsDecimal) (register : List ℕ) (n : ℤ)
    (holds : holding_of register ≡ Number n) where
  pub negative_of : (other : Ten) × (units other ≡ neg_ℤ n) × Nearest (neg_ℤ n) 1 (Ok other)
  negative_of =
      let found = decimals register n (number_there register n holds) in
      negative itself found.answer n found.right

  pub unit_of_number : (other : Ten) × (units other ≡ with_sign (sign_of n) one) × Nearest (with_sign (sign_of n) one) 1 (Ok other)
  unit_of_number = unit itself n

  pub absolute_of : (other : Ten) × (units other ≡ pos (unsigned_abs n)) × Nearest (pos (unsigned_abs n)) 1 (Ok other)
  absolute_of =
      let found = decimals register n (number_there register n holds) in
      absolute itself found.answer n found.right
"""
HELPER_NAMES = ("absolute_of", "by_rounds", "clash", "counter_in", "negative_of", "register_of", "turned", "unit_of_number", "whole_in")


def shared() -> str:
    """Returns the file with what the proofs of all programs of a crate share."""
    return trimmed(f"-- Values that lines leave, and rounds of loops.\n{USED}{PROOF_USED}\n{HELPERS}")


def imports_of(program: Program) -> list[str]:
    """Returns the imports that the proof of a program can need."""
    name = program.name
    return [*USED.splitlines(), *PROOF_USED.splitlines(), *program.imported("After", "lines").splitlines(),
            *(f"use Rattle.{CRATE}.proofs.Of_{one} as of_{one.lower()}" for one in program.callees()),
            f"use Rattle.{CRATE}.proofs.{SHARED}.{{{', '.join(HELPER_NAMES)}}}",
            f"use Rattle.{CRATE}.specs.Of_{name}.{{{name}_After, {name}_Left, {name}_Returns, {name}_lines}}"]


def chosen(place: int, count: int) -> str:
    """Returns the proof of one of several errors, which are the last parts of a disjunction of `count` + 1 parts."""
    found = "refl"
    if place < count - 1:
        found = f"(inl {found})"
    for _ in range(place + 1):
        found = f"(inr {found})"
    return found
