"""The files that are given to a command, put behind one another."""

from __future__ import annotations

import sys
from argparse import Namespace
from collections.abc import Iterable
from pathlib import Path

from clsynth.forms import QUERIES, REPOSITORY, first_words
from clsynth.tokens import first_word, is_alone, is_skipped, lines_of, text_of
from clsynth.transcripts import Input

__all__ = ["Sources", "repository_in"]

_STANDARD_INPUT = "-"
_QUERY_WORDS = frozenset(first_words(QUERIES)) - frozenset(first_words(REPOSITORY))


class Sources:
    """The lines of some files. `-` is standard input.

    Where no line `end` stands before a file that begins with a query, it is added.
    """

    def __init__(self, names: Iterable[str]) -> None:
        self._places: list[tuple[str, int]] = []
        lines: list[bytes] = []
        has_end = False
        for name in names:
            some = lines_of(_read(name))
            if lines and not has_end and _begins_with_query(some):
                lines.append(b"end")
                self._places.append(self._places[-1])
                has_end = True
            lines += some
            self._places += [(name, number) for number in range(1, len(some) + 1)]
            has_end = has_end or any(is_alone(line, "end") for line in some)
        self.text = b"".join(line + b"\n" for line in lines)
        self.input = Input(self.text)

    def place(self, line: int) -> tuple[str, int]:
        """The file and the number of the line in it. Number 0 is what stands before all lines."""
        if not self._places:
            return "input", line
        return self._places[line - 1] if line else (self._places[0][0], 0)


def repository_in(given: Namespace) -> str:
    """The repository of the file that is given, which is read once. Queries behind it are left out."""
    if "lines" not in given:
        given.lines = Sources([given.repository]).input.repository
    return "".join(f"{text_of(line)}\n" for line in given.lines)


def _read(name: str) -> bytes:
    return sys.stdin.buffer.read() if name == _STANDARD_INPUT else Path(name).read_bytes()


def _begins_with_query(lines: list[bytes]) -> bool:
    first = next((line for line in lines if not is_skipped(line)), b"")
    return first_word(first) in _QUERY_WORDS or first_word(first) == "sub" and b"<=" in first
