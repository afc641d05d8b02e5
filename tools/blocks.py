"""The blocks of a document that are run.

One begins with ```cls or ```python, and those behind it that begin with ```output are what is written.
"""

from __future__ import annotations

import re
from dataclasses import dataclass

FENCED = re.compile(r"^```(\w+)\n(.*?)^```$", re.MULTILINE | re.DOTALL)


@dataclass(frozen=True)
class Block:
    # The line of the document that it begins in.
    line: int
    # `cls` or `python`.
    kind: str
    given: str
    wanted: str

    def status(self) -> int:
        """How a run ends: a repository that is refused ends the program with status 2."""
        return 2 if self.wanted.startswith("refused ") else 0


def blocks(text: str) -> list[Block]:
    found = [(text.count("\n", 0, it.start()) + 1, it[1], it[2]) for it in FENCED.finditer(text)]
    return [
        Block(line, kind, given, _outputs(found[place + 1 :]))
        for place, (line, kind, given) in enumerate(found)
        if kind in ("cls", "python")
    ]


def _outputs(fenced: list[tuple[int, str, str]]) -> str:
    """What stands in the blocks of output up to the next block of another kind."""
    wanted = ""
    for _, kind, text in fenced:
        if kind != "output":
            break
        wanted += text
    return wanted
