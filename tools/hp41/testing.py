"""Tests for tools/module: runs cases without and with junk, reports what differs, and writes TAP, JUnit XML and tables in CSV."""
import argparse
import os
from typing import NamedTuple

from .calls import Call, Caller, Result, Views, compared, ended_well
from .cases import TARGET, WORDS, Case, cases_in, table_in, with_quote
from .decks import Failure
from .files import put
from .linking import Linked
from .misplaced import CASES, TABLE, other_than
from .projects import Project, Reader
from .settings import DATA_NAME, MEMORY_NAME, STACK, Setting, Wrong, reader_of, settings_in
from .values import text_of

SEEDS = (1, 2, 3)

# So many failed cases are executed again, to report more about them.
MOST_EXAMINED = 20


class Report(NamedTuple):
    """The report of a case: whether it passed, its lines, and the call and result that it describes."""
    case: Case
    passed: bool
    lines: list[str]
    call: Call
    result: Result


def printed(name: str, value: str) -> str:
    """Returns a value for a message, with its digits if they are not those of a number."""
    if name in STACK or DATA_NAME.fullmatch(name) or MEMORY_NAME.fullmatch(name):
        text = text_of(value)
        return value if text.startswith("=") else text
    return f'"{value}"' if name in ("ALPHA", "display", "refusal") else str(int(value, 16)) if name in ("P", "Q") and value else value


def differences(case: Case, result: Result) -> list[str]:
    """Returns a line for each value that differs, and for a call that did not end."""
    lines = [f"{one.name}: wanted {'at most ' if one.sign == '<=' else ''}{printed(one.name, one.value)}, "
             f"found {printed(one.name, found)}" for one, found in compared(case.after, result)]
    is_missing = case.target.startswith('"') and result.values.get("display") == "NONEXISTENT"
    if is_missing and all(one.name != "display" for one in case.after):
        lines.append(f"the display is NONEXISTENT: no table of the module and no program has the name {case.target}, or a register "
                     "does not exist")
    if result.reason == "Limit":
        lines.append(f"the call has not ended after {result.steps:,} steps")
    elif not ended_well(case.after, result):
        lines.append(f"! {result.refusal}")
    return lines


class Tests:
    """The cases of a module, their results without junk, and their results with the junk of each seed."""

    def __init__(self, linked: Linked, cases: list[Case], seeds: list[int]) -> None:
        """Runs the cases."""
        self.caller, self.cases = Caller(linked), cases
        self.views: dict[tuple[str, ...], Views] = {}
        calls = []
        for case in cases:
            # The display shows whether a function with a quoted name exists.
            views = self.views_of([*(one.name for one in case.after), *(["display"] if case.target.startswith('"') else [])])
            calls.append((Call(self.caller, case), views))
            if not case.target.startswith('"'):
                calls += [(Call(self.caller, case, self.caller.junk(seed)), views) for seed in seeds]
        answers = iter(zip(calls, self.caller.results(calls)))
        self.results = [[next(answers) for _ in range(1 if case.target.startswith('"') else 1 + len(seeds))] for case in cases]

    def views_of(self, names: list[str]) -> Views:
        """Returns the views of some settings. Cases that want the same settings share them."""
        key = tuple(names)
        if key not in self.views:
            self.views[key] = Views(names, self.caller.sizes)
        return self.views[key]

    def reports(self) -> list[Report]:
        """Returns a report for each case. A case fails without junk, or because it answers otherwise with junk."""
        found = []
        for case, answers in zip(self.cases, self.results):
            (call, _), result = answers[0]
            lines = differences(case, result)
            if lines:
                found.append(Report(case, False, lines, call, result))
                continue
            wrong = next(((call, result) for (call, _), result in answers[1:] if differences(case, result)), None)
            if wrong:
                found.append(Report(case, False, [], *wrong))
            else:
                found.append(Report(case, True, [], call, result))
        return found


def completed(caller: Caller, reports: list[Report], is_traced: bool) -> None:
    """Adds to the reports of failed cases where they ended, which register was never set, and their steps. A bug may fail every case, so
    only the first failed cases are executed again."""
    failed = [report for report in reports if not report.passed]
    if not failed:
        return
    from .finding import causes_of
    from .stepping import MOST_TRACED, losses_in, place_of, rows_of, traced
    for number, report in enumerate(failed):
        if report.call.junked and not report.lines:
            report.lines.extend(causes_of(caller, report.case, report.call) if number < MOST_EXAMINED else
                                ["depends on a register that was never set: the reports of earlier cases name registers"])
    counts = [report.result.steps + (report.result.reason == "Refused") for report in failed]
    examined = [number < MOST_EXAMINED and (is_traced or count <= MOST_TRACED) for number, count in enumerate(counts)]
    steps = traced(caller, [(report.call, count if is_wanted else 0) for report, count, is_wanted in zip(failed, counts, examined)])
    for report, own in zip(failed, steps):
        if own and report.result.steps <= MOST_TRACED:
            report.lines.append(f"ended at {place_of(caller.linked, own[-1])} after {report.result.steps} steps")
        elif report.result.steps:
            report.lines.append(f"ended after {report.result.steps:,} steps")
        report.lines.extend(losses_in(caller.linked, own))
        if is_traced:
            report.lines.extend(rows_of(caller.linked, own))


def tap(reports: list[Report]) -> str:
    """Returns the results in the format TAP."""
    lines = [f"1..{len(reports)}"]
    for number, report in enumerate(reports, 1):
        lines.append(f"{'ok' if report.passed else 'not ok'} {number} - {report.case.name()}")
        lines += [f"# {line}" for line in report.lines]
    return "\n".join(lines) + "\n"


def junit(name: str, reports: list[Report]) -> str:
    """Returns the results as JUnit XML."""
    from xml.sax.saxutils import escape, quoteattr
    failed = sum(not report.passed for report in reports)
    lines = ['<?xml version="1.0" encoding="UTF-8"?>',
             f'<testsuite name={quoteattr(name)} tests="{len(reports)}" failures="{failed}">']
    for report in reports:
        case = report.case
        head = (f"<testcase classname={quoteattr(case.path)} name={quoteattr(case.name())} file={quoteattr(case.path)} "
                f'line="{case.number}"')
        if report.passed:
            lines.append(f"{head}/>")
            continue
        text = "\n".join(report.lines)
        message = report.lines[0] if report.lines else "the result depends on what the registers contain before the call"
        lines += [f"{head}>", f"<failure message={quoteattr(message)}>{escape(text)}</failure>", "</testcase>"]
    return "\n".join([*lines, "</testsuite>", ""])


def written(tests: Tests, names: list[str], out: str) -> None:
    """Writes a table of the values found after each call, with the settings before it."""
    import csv
    import io
    file = io.StringIO()
    writer = csv.writer(file, lineterminator="\n")
    before = list(dict.fromkeys(one.name for case in tests.cases for one in case.before))
    writer.writerow(["call", *before, *(f"->{name}" for name in names)])
    for case, answers in zip(tests.cases, tests.results):
        _, result = answers[0]
        values = {**result.values, "steps": str(result.steps), "refusal": result.refusal}
        own = {one.name: printed(one.name, one.value) for one in case.before}
        writer.writerow([case.target, *(own.get(name, "") for name in before),
                         *(printed(name, values[name]).strip('"') for name in names)])
    put(file.getvalue().encode(), out)


def usual(project: Project) -> list[Setting]:
    """Returns the settings that every test of a project has before its call."""
    try:
        return settings_in(WORDS.findall(project.before), True)
    except Wrong as why:
        raise Reader(project.path).fail("", "before", with_quote(why, project.before)) from why


def check_kind(linked: Linked, path: str, wanted: str, uses: dict[str, str]) -> None:
    """Raises Failure if a path is a file of another kind by its name, or no file but a label of the project. `uses` says what to do with
    files of other kinds."""
    other = other_than(path, wanted, uses) if os.path.isfile(path) else ""
    if other:
        raise Failure(f"{path}: {other}")
    if path == "-" or os.path.exists(path):
        return
    named, folder = TARGET.fullmatch(path), linked.project.path.removesuffix("module.toml").rstrip("/") or "."
    if named and not isinstance(linked.called(named[1], named[2]), str):
        raise Failure(f"{path} is a label of {folder}: expected {wanted}; `tools/module run {folder} {path}` calls it")
    raise Failure(f"{path}: no such file: expected {wanted}")


def cases_of(linked: Linked, options: argparse.Namespace) -> list[Case]:
    """Returns the cases to run: the rows of a table, or those of the files."""
    project = linked.project
    common = usual(project)
    if options.table is not None:
        names = options.values.split(",") if options.values else []
        try:
            for name in names:
                reader_of(name)
        except Wrong as why:
            raise Failure(f"--values: {why}", 2) from why
        wanted = [Setting(name, "", "") for name in names]
        check_kind(linked, options.table, TABLE, {CASES: "run it without --table"})
        cases = table_in(options.table, options.call, common, options.write is not None)
        return [case._replace(after=[*case.after, *wanted]) for case in cases] if wanted else cases
    files = options.files or project.tests
    if not files:
        raise Failure(f'{project.path}: the project names no tests: expected tests = ["NAME.cases"]')
    if not options.files:
        Reader(project.path).want("", "tests", *files)
    for path in files:
        check_kind(linked, path, CASES, {TABLE: f"run it with --table {path}"})
    return [case for path in files for case in cases_in(path, common)]


def test(linked: Linked, options: argparse.Namespace) -> int:
    """Runs the tests, and prints their results. Returns the status."""
    if linked.has_checksums():
        linked.assemble()
    cases = cases_of(linked, options)
    seeds = options.junk or ([] if options.no_junk or options.table is not None else list(SEEDS))
    tests = Tests(linked, cases, seeds)
    if options.write is not None:
        written(tests, options.values.split(","), options.write)
        return 0
    reports = tests.reports()
    completed(tests.caller, reports, options.trace)
    print(tap(reports), end="")
    if options.junit is not None:
        put(junit(linked.project.name, reports).encode(), options.junit)
    return int(not all(report.passed for report in reports))
