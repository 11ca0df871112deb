"""Single calls for tools/module run and trace."""
from .calls import Call, Caller, Views, ended_well
from .cases import CALLED, Case, is_target, row_of
from .decks import Failure
from .linking import Linked
from .settings import STACK, Wrong
from .stepping import MOST_TRACED, rows_of, traced
from .testing import usual
from .values import text_of

CPU_SHOWN = ("A", "B", "C", "M", "N", "G", "cpu.T", "ST", "P", "Q", "PT", "CY", "MODE", "RAM")


def case_of(linked: Linked, target: str, words: list[str]) -> Case:
    """Returns the case of a command line."""
    common = usual(linked.project)
    if "=" in target and not is_target(target):
        from .case_causes import of_order
        raise Failure(f"found `{target}`, expected {CALLED}{of_order([target, *words], is_target)}")
    try:
        name, before, _ = row_of([target, *map(requoted, words)], common)
    except Wrong as why:
        raise Failure(str(why)) from why
    return Case("command line", 1, "", name, before, [])


def requoted(word: str) -> str:
    """Returns a setting with quotes around its value, which the shell has removed."""
    name, sign, value = word.partition("=")
    quote = "'" if '"' in value else '"'
    return f"{name}{sign}{quote}{value}{quote}" if name in ("keys", "ALPHA") and value[:1] not in ('"', "'") else word


def call(linked: Linked, target: str, words: list[str], is_traced: bool) -> int:
    """Performs a call, and prints its steps or the registers after it. Returns the status."""
    if linked.has_checksums():
        linked.assemble()
    caller = Caller(linked)
    case = case_of(linked, target, words)
    one = Call(caller, case)
    views = Views([*STACK, *CPU_SHOWN, "ALPHA", "display"], caller.sizes)
    result = caller.results([(one, views)])[0]
    steps = traced(caller, [(one, max(result.steps, 0) + (result.reason == "Refused"))])[0] if is_traced else []
    print(*rows_of(linked, steps), sep="\n", end="\n" if steps else "")
    if is_traced and result.steps > MOST_TRACED:
        print(f"the first {MOST_TRACED:,} of {result.steps:,} steps were printed")
    if not is_traced:
        for name, value in result.values.items():
            number = text_of(value) if name in STACK else value
            print(f"{name}={number}" + (f"  {value}" if name in STACK and number[:1] != "=" else ""))
    print(f"ran {result.steps} {result.reason}" + (f" ! {result.refusal}" if result.refusal else ""))
    return 0 if ended_well(case.after, result) else 1


def debug(linked: Linked, target: str, words: list[str]) -> int:
    """Debugs a call from the first instruction of what it calls. Returns the status."""
    from .debugger import Debugger, loop
    from .debugging import Machine, banked
    from .decks import items_of, lines_of
    from .sourcing import Places, parts_of_project
    linked.assemble()
    caller = Caller(linked)
    one = Call(caller, case_of(linked, target, words))
    deck = linked.deck() + f"words {caller.page}\n3E0\nend\n{one.deck}{f'step {one.before}' if one.before else ''}\n".encode("latin-1")
    lines = lines_of(deck)
    commands = [b"".join(lines[first:last + 1]) for first, last in items_of(lines)]
    machine = Machine(commands, linked.project.memory, banked(commands))
    return loop(Debugger(machine, Places(parts_of_project(linked)), []))
