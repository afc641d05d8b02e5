"""The first steps with what a release installs: those of the tutorial."""

from __future__ import annotations

import difflib
import subprocess
from collections.abc import Callable, Mapping, Sequence
from pathlib import Path

from blocks import Block, blocks
from releasing.commands import TOP, Refusal

TUTORIAL = "docs/TUTORIAL.md"
# A step is answered in far less than a second.
SECONDS = 60


def try_steps(words_of: Callable[[Block, Path], Sequence[str | Path] | None], room: Path, environment: Mapping[str, str]) -> int:
    """Runs each step by the words that are told for it, with its input in a file, and counts them. Raises `Refusal` if something else is
    written than what stands in the tutorial. A step without words is left out."""
    steps = [(block, words_of(block, room / "step")) for block in blocks((TOP / TUTORIAL).read_text())]
    known = [(block, words) for block, words in steps if words]
    for block, words in known:
        (room / "step").write_text(block.given)
        with open(room / "step") as given:
            ran = subprocess.run(words, stdin=given, capture_output=True, text=True, cwd=room, env=environment, timeout=SECONDS)
        if (ran.stdout, ran.returncode) != (block.wanted, block.status()):
            lines = difflib.unified_diff(block.wanted.splitlines(), ran.stdout.splitlines(), "what stands there", "what came", lineterm="")
            raise Refusal("\n".join([f"{TUTORIAL}, line {block.line}: status {ran.returncode}", *lines, ran.stderr]))
    return len(known)
