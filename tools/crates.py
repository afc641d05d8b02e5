"""The crates of the repository, as crates.txt names them."""

from __future__ import annotations

from collections.abc import Iterable
from pathlib import Path

TOP = Path(__file__).resolve().parents[1]


def dependencies(top: Path = TOP) -> dict[str, list[str]]:
    """Each crate with what it stands on, lowest first."""
    lines = (line.partition("#")[0] for line in (top / "crates.txt").read_text().splitlines())
    return {name.strip(): names.split() for name, names in (line.split(":") for line in lines if ":" in line)}


def closure(crates: Iterable[str], stands_on: dict[str, list[str]]) -> list[str]:
    """These crates and those below them, lowest first, without crates of the kit."""
    wanted: set[str] = set()
    waiting = list(crates)
    while waiting:
        crate = waiting.pop()
        if crate in stands_on and crate not in wanted:
            wanted.add(crate)
            waiting += stands_on[crate]
    return [crate for crate in stands_on if crate in wanted]
