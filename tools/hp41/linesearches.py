"""The part of a proof about a program that is about its lines in memory: where GTO and XEQ lead, and which lines a subroutine has."""
from __future__ import annotations

from .linetheorems import Program
from .lineterms import term_of

READS = "Reads (program_bytes old) (final_position old)"


class Searches:
    """Writes the statements about the lines of a program."""

    def __init__(self, program: Program) -> None:
        """Takes the program."""
        self.program = program
        self.leads = sorted(program.leads().items())
        self.parts = sorted({call.place for call in program.walk.calls.values() if call.place is not None})

    @staticmethod
    def at(place: int) -> str:
        """Returns the position of a line."""
        return "at" if place == 0 else f"l{place - 1}.next"

    @staticmethod
    def rest(place: int) -> str:
        """Returns the list of the lines from a place on."""
        return f"l{place - 1}.rest" if place else "listed"

    def head(self) -> str:
        """Returns the head of the module with the lines."""
        rows = [f"(l{at} : IsListed old {self.at(at)} {self.rest(at)} ({term_of(line.text, at)}))"
                for at, line in enumerate(self.program.lines)]
        if self.parts:
            rows.append(f"(others : List Line) (are : lines_of listed ≡ {self.program.listed()} ++ others)")
        found = "  module _ (listed : List ListedLine)\n      " + "\n      ".join(rows) + " where"
        if not self.leads:
            return found
        parts = "".join(self.part(place) + "\n\n" for place in self.parts)
        leads = "\n\n".join(self.leading(at, place) for at, place in self.leads)
        given = "\n        ".join(f"(lead_{at} : {self.answers(at, place)})" for at, place in self.leads)
        return f"{found}\n{parts}{leads}\n\n    module _ {given} where"

    def given(self) -> str:
        """Returns the arguments of the module after those of the lines, and the proofs of where GTO and XEQ lead."""
        more = " has.others has.are" if self.parts else ""
        count = len(self.program.lines)
        lines = " ".join("are." + "1." * at + "0" for at in range(count))
        leads = "".join(f" (leads_{at} has.listed {lines}{more} program.begins.0 (program.begins.1.sound sound) (has.from.sound sound) "
                        "program.begins.2)" for at, _ in self.leads)
        return f"has.listed {lines}{more}{leads}"

    def part(self, place: int) -> str:
        """Returns the proof that memory has the lines of a subroutine at a place of the program."""
        callee = next(call.program for call in self.program.walk.calls.values() if call.place == place)
        unknowns = [f"{kind}_{int(at) + place}" for kind, at in (name.rsplit("_", 1) for name in callee.unknowns())]
        lines = f"({callee.name}_lines {' '.join(unknowns)})" if unknowns else f"{callee.name}_lines"
        others = "".join(f"{term_of(line.text, place + len(callee.lines) + at)} ∷ "
                         for at, line in enumerate(self.program.lines[place + len(callee.lines):]))
        are = "are"
        for at in range(place):
            tail = "".join(f"{term_of(line.text, at + 1 + more)} ∷ " for more, line in enumerate(self.program.lines[at + 1:]))
            are = f"(rest_lines old sound {self.at(at)} {self.rest(at)} _ ({tail}others) l{at} {are})"
        return (f"    part_{place} : HasProgram old {self.at(place)} {lines}\n    part_{place} = part_of old sound {self.at(place)} "
                f"{self.rest(place)} {lines} ({others}others) {f'l{place - 1}.reads' if place else 'absurd'} {are}")

    def answers(self, at: int, place: int) -> str:
        """Returns the statement that GTO or XEQ leads to the label at a place."""
        return f"AnswersLocal old l{at}.next {int(self.program.lines[at].text[4:])} (Some {self.at(place)})"

    def passing(self, label: int, first: int, last: int) -> str:
        """Returns the proof that some lines are not a label, for a search that begins at the first of them."""
        return " ∙ ".join(f"label_after old sound {self.at(one)} {label} {self.rest(one)} _ l{one} refl refl" for one in range(first, last))

    def leading(self, at: int, place: int) -> str:
        """Returns the proof that GTO or XEQ leads to the label at a place."""
        label, here = int(self.program.lines[at].text[4:]), f"l{at}.next"
        none = f"(none_late old sound {here} {here} l{at}.rest (omega arith) l{at}.reads)"
        for before in reversed(range(at + 1)):
            none = f"(no_end old sound {here} {self.at(before)} {self.rest(before)} _ l{before} refl {none})"
        onward = ", ".join(f"l{one}.onward" for one in range(at + 1))
        found = f"label_here old sound {self.at(place)} {label} {self.rest(place)} _ l{place} refl"
        if place > at:
            lemma, passed, nothing = "found_onward", self.passing(label, at + 1, place), ""
        else:
            lemma, passed, nothing = "found_back", self.passing(label, 0, place), f"\n        ({self.nothing(label, at + 1)})"
        return "\n".join([
            f"    leads_{at} : (all : List ListedLine) → {READS} 0 all → {READS} at listed → at ≡ start_in at all → "
            f"{self.answers(at, place)}",
            f"    leads_{at} all all_read reads is_start =", f"        let after : at ≤ {here} = omega (arith, {onward}) in",
            f"        subst (λ (target : ℕ). AnswersLocal old {here} {label} (Some target))",
            f"        (sym (position_next old sound {self.at(place - 1)} {self.rest(place - 1)} _ l{place - 1} _ l{place}))",
            f"        ({lemma} old sound one_reading at {here} {label} l{place}.first.position all listed l{at}.rest all_read reads "
            f"l{at}.reads is_start after", f"        {none}{nothing}", f"        ({found}{f' ∙ sym ({passed})' if passed else ''}))"])

    def nothing(self, label: int, first: int) -> str:
        """Returns the proof that no line from one on to the END is a label."""
        end = next(place for place in range(first, len(self.program.lines)) if self.program.lines[place].text == "END")
        passed = self.passing(label, first, end)
        last = f"label_at_end old sound {self.at(end)} {label} {self.rest(end)} _ l{end} refl"
        return f"{passed} ∙ {last}" if passed else last
