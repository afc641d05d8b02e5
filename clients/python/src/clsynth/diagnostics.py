"""What is said about a line of an input, as people read it."""

from __future__ import annotations

from dataclasses import dataclass
from enum import Enum

from clsynth.tokens import byte_of

__all__ = ["Diagnostic", "Severity", "one_of"]

_BEFORE, _BEHIND = 60, 60
"""How many characters of a long line are shown before the caret and behind it."""


class Severity(Enum):
    """How much a diagnostic matters."""

    ERROR = "error"
    """The program refuses the line."""
    WARNING = "warning"
    """The line can't do what it seems to be for."""
    HINT = "hint"
    """The line may be meant so."""


@dataclass(frozen=True)
class Diagnostic:
    """What is said about a line."""

    severity: Severity
    line: int
    """The number of the line in the input, counted from 1."""
    text: str
    """The line."""
    place: int | None
    """The character of the line of which it is said, counted from 0, if it is one."""
    words: str
    """What is said."""
    notes: tuple[str, ...] = ()
    """What else may help: sentences."""

    @property
    def byte(self) -> int | None:
        """The byte of the line of which it is said, counted from 0, if it is one."""
        return None if self.place is None else byte_of(self.text, self.place)

    def shown(self, file: str, line: int | None = None) -> str:
        """The diagnostic with its line, and a caret under the place. The number of the line is another one if the input is made of files.
        Columns are characters, and counted from 1."""
        number = self.line if line is None else line
        head = f"{file}:{number}:{(self.place or 0) + 1}: {self.severity.value}: {self.words}"
        return "\n".join([head, *_caret_lines(self.text, self.place), *(f"    {note}" for note in self.notes)])


def one_of(words: list[str] | tuple[str, ...]) -> str:
    """`a`, `b` or `c`."""
    *others, last = words
    return f"{', '.join(others)} or {last}" if others else last


def _caret_lines(text: str, place: int | None) -> list[str]:
    """The line, or the part of it around the place, and the caret."""
    if not text.strip():
        return []
    middle = place or 0
    start, end = max(0, middle - _BEFORE), middle + _BEHIND
    before, behind = ("..." if start else ""), ("..." if end < len(text) else "")
    # A character that a terminal doesn't show as one column would move the caret.
    piece = "".join(character if character.isprintable() else " " for character in text[start:end])
    shown = [f"    {before}{piece}{behind}"]
    if place is not None:
        shown.append(" " * (4 + len(before) + middle - start) + "^")
    return shown
