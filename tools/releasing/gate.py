"""The gate: what tools/keep-gate keeps of one that passed, and whether a release may be made over it."""

from __future__ import annotations

from collections.abc import Sequence
from dataclasses import dataclass

from releasing.commands import TOP
from releasing.origin import VERSION_FILE, Origin

RECORD = TOP / "out/gate"
PROGRAM = TOP / "crates/clsynth/out/clsynth"


@dataclass(frozen=True)
class Gate:
    # The files that it passed on, as Git names them, and the SHA-256 sum of the program that it has built from them.
    tree: str
    program: str
    # The kit that proved and built it, as `rt version` prints it.
    kit: str
    # What its checks said at their ends.
    lines: tuple[str, ...]


def kept_gate() -> Gate | None:
    """The gate that passed last in this clone, if one did."""
    if not RECORD.exists():
        return None
    tree, program, kit, *lines = RECORD.read_text().splitlines()
    return Gate(tree, program, kit, tuple(lines))


def refusal(asked: str, origin: Origin, changed: Sequence[str], program: str | None, gate: Gate | None) -> str:
    """Why no release of this version can be made from these files and a program with this sum; empty if one can."""
    if asked != origin.version:
        return f"these files are version {origin.version}, as {VERSION_FILE} says, and not {asked}"
    if changed:
        return f"what is released has to be committed, and these files aren't: {' '.join(changed)}"
    if program is None:
        return f"there is no program: the gate, .ci/run, proves and builds {PROGRAM.relative_to(TOP)}"
    if gate is None:
        return "no gate has passed here on files that were committed: call .ci/run"
    if gate.tree != origin.tree:
        return f"the gate has passed on other files than these, the tree {gate.tree} in place of {origin.tree}: call .ci/run"
    if gate.program != program:
        return f"{PROGRAM.relative_to(TOP)} isn't the program of the gate that passed: call .ci/run"
    return ""
