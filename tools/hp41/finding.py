"""Finds which register a case depends on that was never set, and the instruction that reads it first."""
from .calls import Call, Caller, Views, compared, ended_well
from .cases import Case
from .linking import Linked
from .settings import DATA_NAME, MEMORY_NAME, Setting
from .stepping import Step, place_of, traced

# So many steps are compared at most.
MOST_COMPARED = 5_000

# The names of the registers as the state of a step has them. What names the register itself does not count as a difference.
OWN = {"cpu.T": {"T"}}


def causes_of(caller: Caller, case: Case, junked: Call) -> list[str]:
    """Returns a line for each register on which the answer of a case depends, found by filling one register at a time."""
    junk = next(junk for junk in caller.junks.values() if Call(caller, case, junk).deck == junked.deck)
    views = Views([one.name for one in case.after], caller.sizes)
    alone = [(name, Call(caller, case, {name: junk[name]})) for name in junked.junked]
    results = caller.results([(call, views) for _, call in alone])
    guilty = [(name, call, result.steps) for (name, call), result in zip(alone, results)
              if compared(case.after, result) or not ended_well(case.after, result)]
    if not guilty:
        names = ", ".join(name for name in junked.junked)
        return [f"depends on registers that were never set, several of {names} together"]
    more = [address for address in map(lambda one: address_of(caller, one), case.after) if address]
    plain = Call(caller, case)
    steps = max(count for _, _, count in guilty) + 1
    traces = traced(caller, [(call, min(steps, MOST_COMPARED)) for call in (plain, *(call for _, call, _ in guilty))], more)
    return [f"depends on a register that was never set: {name}{reader(caller.linked, name, traces[0], own)}"
            for (name, _, _), own in zip(guilty, traces[1:])]


def address_of(caller: Caller, one: Setting) -> str:
    """Returns the address of a register of memory that a setting names; an empty text for others."""
    data = DATA_NAME.fullmatch(one.name)
    if data:
        return f"{caller.sizes.address(int(data[1])):03X}"
    return one.name if MEMORY_NAME.fullmatch(one.name) else ""


def reader(linked: Linked, name: str, plain: list[Step], junked: list[Step]) -> str:
    """Returns where a register is read first: at the first step after which something else differs too."""
    own = OWN.get(name, {name})
    for one, other in zip(plain, junked):
        if one.address != other.address or one.text != other.text:
            return ""
        differs = {key for key in one.after if one.after[key] != other.after[key]}
        if differs - own or one.refusal != other.refusal or name == "RAM" and touches(other, differs):
            return f" in {place_of(linked, other)}"
    return ""


def touches(step: Step, differs: set[str]) -> bool:
    """Returns whether an instruction reads or writes memory at an address that depends on junk."""
    return "RAM" in differs and step.text.split()[0] in ("READ", "WRIT")
