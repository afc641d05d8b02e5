"""Templates: how a component is written as a text."""

from __future__ import annotations

import re

from clsynth.errors import BadTemplate
from clsynth.limits import MAX_LINE_BYTES
from clsynth.tokens import bytes_of, can_be_read

__all__ = ["check_template"]

_PIECES = re.compile(r"(?:[^{}\\]|\{\{|\}\}|\\n|\\\\|\{0*(?:[1-9]|1[0-6])\})*")


def check_template(text: str) -> str:
    """The template as a line has it, with `\\n` for a line feed. Otherwise `BadTemplate` says what is wrong."""
    if not can_be_read(bytes_of(text)):
        raise BadTemplate(f"a template is UTF-8 and has at most {MAX_LINE_BYTES:,} bytes: {text[:200]!r}")
    template = text.replace("\n", "\\n")
    pieces = _PIECES.match(template)
    place = pieces.end() if pieces else 0
    if place < len(template):
        raise BadTemplate(
            f"{template[place : place + 10]!r} at character {place}: a hole is `{{1}}` to `{{16}}`, and `{{{{`, `}}}}` and `\\\\` are written "
            f"for a brace and a backslash: {template[:200]}"
        )
    if template.endswith("\r"):
        raise BadTemplate("a carriage return at the end of a line isn't part of it")
    return template
