"""The commands that a release is made with."""

from __future__ import annotations

import os
import subprocess
from collections.abc import Mapping, Sequence
from pathlib import Path

TOP = Path(__file__).resolve().parents[2]
# Git looks at a folder of another owner too, and what tools write is in English.
ALWAYS = {"GIT_CONFIG_COUNT": "1", "GIT_CONFIG_KEY_0": "safe.directory", "GIT_CONFIG_VALUE_0": "*", "LC_ALL": "C"}


class Refusal(Exception):
    """Why no release is made, as a sentence."""


class Missing(Refusal):
    """Something isn't there that Debian has."""


def written_by(words: Sequence[str | Path], folder: Path = TOP, environment: Mapping[str, str] | None = None) -> str:
    """What a command writes on standard output. Raises `Missing` if there is no such command, and `Refusal` if it fails."""
    every = {**os.environ, **ALWAYS, **(environment or {})}
    try:
        ran = subprocess.run(words, cwd=folder, env=every, capture_output=True, text=True)
    except FileNotFoundError:
        raise Missing(f"the command {words[0]} isn't there: tools/people-setup installs it from Debian") from None
    if ran.returncode:
        raise Refusal(f"{' '.join(map(str, words))} ended with status {ran.returncode}: {(ran.stderr or ran.stdout).strip()}")
    return ran.stdout
