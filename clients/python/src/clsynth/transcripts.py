"""What was asked and what was answered: the queries of an input, and the replies of an output, one for each."""

from __future__ import annotations

import re
from collections.abc import Iterator
from dataclasses import dataclass
from functools import cached_property
from io import BytesIO
from typing import Protocol

from clsynth.declarations import Declared
from clsynth.explanations import REFUSALS
from clsynth.tokens import first_word, is_alone, is_skipped, lines_of, text_of

__all__ = ["Asked", "Exchange", "Fault", "Input", "exchanges", "fault_of", "read_replies"]

_LAST_LINES = {
    "batch": ("done",), "list": ("more", "done"), "texts": ("more", "done"), "filtered": ("more", "done"), "paths": ("done",),
    "grammar": ("done",), "audit": ("done",), "certify": ("qed",),
}
"""With which line the reply to a query of several lines ends."""

_REFUSED = re.compile(rb"refused [0-9]+ ([a-z0-9-]+)")
"""Behind the number stands the word of a refusal of the repository, or that of a reason why a certificate is refused."""


class Output(Protocol):
    """What the program writes."""

    def readline(self) -> bytes:
        """The next line with its line feed, and nothing at the end."""

    def read(self, size: int, /) -> bytes:
        """The next so many bytes."""


@dataclass(frozen=True)
class Asked:
    """A query with the number of its first line, counted from 1. Behind the line of a `verify` stand those of its certificate."""

    line: int
    lines: tuple[bytes, ...]

    @property
    def text(self) -> str:
        """The line of the query."""
        return text_of(self.lines[0])

    @property
    def word(self) -> str:
        """Its first word, and an empty text if it has none."""
        return first_word(self.lines[0])


@dataclass(frozen=True)
class Fault:
    """A word that the program writes for something that is wrong, and what stands behind it."""

    word: str
    detail: str = ""


@dataclass(frozen=True)
class Exchange:
    """What was answered. Without a query it is the refusal of the repository. `pieces` are the lines of the reply; a text of several lines
    is one of them."""

    asked: Asked | None
    pieces: tuple[bytes, ...]

    @property
    def first(self) -> str:
        """The first line of the reply."""
        return self.pieces[0].decode()

    @property
    def error(self) -> Fault | None:
        """The error of the query, if it has one."""
        if self.asked is None or not self.first.startswith("error "):
            return None
        return fault_of(self.first)

    @property
    def refusal(self) -> tuple[int, Fault] | None:
        """The number of a line of the repository and its fault, or that of a row of a certificate and the test that it fails."""
        if not self.first.startswith("refused "):
            return None
        _, number, words = self.first.split(" ", 2)
        word, _, detail = words.partition(" ")
        return int(number), Fault(word, detail)

    def written(self) -> bytes:
        """The reply as the program wrote it."""
        return b"".join(piece + b"\n" for piece in self.pieces)


class Input:
    """The lines of an input: first those of the repository, with the line `end`, and then the queries."""

    def __init__(self, text: bytes) -> None:
        self.lines = lines_of(text)
        ends = (number for number, line in enumerate(self.lines) if is_alone(line, "end"))
        self.end = next(ends, None)
        """The place of the line `end` among the lines, if there is one."""

    @property
    def repository(self) -> list[bytes]:
        """The lines of the repository. Without a line `end` these are all lines."""
        return self.lines if self.end is None else self.lines[: self.end + 1]

    @cached_property
    def declared(self) -> Declared:
        """What the repository declares."""
        return Declared(self.repository)

    def queries(self) -> Iterator[Asked]:
        """The queries in turn."""
        place = len(self.repository)
        while place < len(self.lines):
            start, line = place, self.lines[place]
            place += 1
            if is_skipped(line):
                continue
            if first_word(line) == "verify":
                while place < len(self.lines) and not is_alone(self.lines[place], "qed"):
                    place += 1
                place += 1
            yield Asked(start + 1, tuple(self.lines[start:place]))


def exchanges(text: bytes, output: bytes) -> list[Exchange]:
    """What was answered to the text."""
    return list(read_replies(Input(text), BytesIO(output)))


def read_replies(given: Input, output: Output) -> Iterator[Exchange]:
    """The replies in turn, as they come. They end early if the program does, and there is none if it doesn't take its words."""
    first = output.readline()
    if first.startswith(b"usage: "):
        return
    refused = _REFUSED.match(first)
    if refused and refused[1].decode() in REFUSALS:
        yield Exchange(None, (first.removesuffix(b"\n"),))
        return
    for asked in given.queries():
        if not first.endswith(b"\n"):
            return
        pieces = _reply(asked, first[:-1], output)
        if pieces is None:
            return
        yield Exchange(asked, pieces)
        first = output.readline()


def fault_of(line: str) -> Fault:
    """The fault that a line `error WORDS` says."""
    word, _, detail = line.removeprefix("error ").partition(" ")
    return Fault(word, detail)


def _reply(asked: Asked, first: bytes, output: Output) -> tuple[bytes, ...] | None:
    """The lines of the reply that begins with this line, and nothing if the output ends within it."""
    pieces = [first]
    lasts = ("done",) if first == b"infinite" else _LAST_LINES.get(asked.word, ())
    if first.startswith(b"error "):
        lasts = ()
    while lasts and pieces[-1].decode() not in lasts:
        line = output.readline()
        if not line.endswith(b"\n"):
            return None
        pieces.append(line[:-1])
        if asked.word == "texts" and line.startswith(b"text "):
            # The text may have lines of its own, so it is read by its length.
            pieces.append(output.read(int(line[5:]) + 1)[:-1])
            pieces.append(output.readline().removesuffix(b"\n"))
    return tuple(pieces)
