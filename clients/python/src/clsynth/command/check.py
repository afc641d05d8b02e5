"""`cls check`, which is `clsynth-check` too: lint over files."""

from __future__ import annotations

from argparse import Namespace

from clsynth.command.sources import Sources
from clsynth.command.statuses import FOUND
from clsynth.diagnostics import Severity
from clsynth.lint import lint_input

__all__ = ["check"]


def check(given: Namespace) -> int:
    """Prints what lint finds. Hints alone are no reason for another status than 0."""
    sources = Sources(given.files)
    found = lint_input(sources.input)
    for it in found:
        print(it.shown(*sources.place(it.line)))
    return FOUND if any(it.severity is not Severity.HINT for it in found) else 0
