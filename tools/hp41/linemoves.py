"""Program lines that only move values between registers."""
from __future__ import annotations

from dataclasses import replace
from typing import TYPE_CHECKING

from .lineclaims import ZERO
from .lineterms import SILENT

if TYPE_CHECKING:
    from .linepoints import State


def moved(text: str, state: State) -> State:
    """Returns the state after a line that only moves values in the stack."""
    on = replace(state, lift=True)
    if text == "ENTER^":
        return replace(state, t=state.z, z=state.y, y=state.x, lift=False)
    if text == "X<>Y":
        return replace(on, x=state.y, y=state.x)
    if text == "RDN":
        return replace(on, x=state.y, y=state.z, z=state.t, t=state.x)
    if text == "R^":
        return replace(on, x=state.t, y=state.x, z=state.y, t=state.z)
    if text == "CLX":
        return replace(state, x=ZERO, lift=False)
    if text == "CLST":
        return replace(on, x=ZERO, y=ZERO, z=ZERO, t=ZERO)
    return on if text in SILENT else state
