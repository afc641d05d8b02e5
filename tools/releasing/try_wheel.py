"""A trial of the wheel: it is installed into a fresh virtual environment without a network, and used there."""

from __future__ import annotations

import os
from collections.abc import Sequence
from pathlib import Path

from blocks import Block
from releasing.commands import Refusal, written_by
from releasing.steps import try_steps
from releasing.trees import digest
from releasing.wheels import python_that_has

FIND = "from clsynth.program import find_program; print(find_program())"


def try_wheel(wheel: Path, program: Path, version: str, room: Path) -> str:
    """Tries a wheel of this version that has this program, and says what was tried."""
    # This compares the files of the wheel with the sums that it tells of them.
    written_by([python_that_has("wheel"), "-m", "wheel", "unpack", "--dest", room / "unpacked", wheel])
    place = room / "environment"
    written_by([python_that_has("ensurepip, venv"), "-m", "venv", place])
    # Nothing of the system is on the PATH, so a program that is installed there isn't found.
    environment = {"PATH": str(place / "bin"), "HOME": str(room), "PIP_CONFIG_FILE": os.devnull, "PIP_DISABLE_PIP_VERSION_CHECK": "1"}
    inside = {**environment, "CLSYNTH": "", "PYTHONPATH": ""}
    written_by([place / "bin/pip", "install", "--no-index", "--quiet", wheel], environment=inside)
    if (told := written_by([place / "bin/cls", "--version"], environment=inside)) != f"cls {version}\n":
        raise Refusal(f"the command of the wheel says that it is {told.strip()}")
    found = Path(written_by([place / "bin/python", "-c", FIND], environment=inside).strip())
    if not found.is_relative_to(place) or digest(found) != digest(program):
        raise Refusal(f"the package of the wheel finds {found}, which isn't the program of the release")
    count = try_steps(lambda block, step: _words(block, place / "bin", step), room, environment)
    return f"installed into a fresh virtual environment, {count} steps of the tutorial by cls and by the client"


def _words(block: Block, folder: Path, step: Path) -> Sequence[str | Path]:
    return [folder / "cls", "run", step] if block.kind == "cls" else [folder / "python", step]
