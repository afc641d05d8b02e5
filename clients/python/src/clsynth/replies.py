"""What the program answers, as values. Grammars and certificates have modules of their own."""

from __future__ import annotations

from dataclasses import dataclass
from typing import Generic, NamedTuple, TypeVar

from clsynth.terms import Term

__all__ = ["Event", "Page", "Sizes", "Step", "TermText", "Verdict"]

Entry = TypeVar("Entry")


class TermText(NamedTuple):
    """A term with its text by the templates. The text is None if it has more than 65,536 bytes."""

    term: Term
    text: str | None


class Page(NamedTuple, Generic[Entry]):
    """Some terms of a type, and whether a further one follows."""

    entries: list[Entry]
    more: bool

    def _repr_html_(self) -> str:
        from clsynth.html import page_html
        return page_html(self)


class Verdict(NamedTuple):
    """What is found of a certificate. If it is refused, a row or member fails the test that `reason` names."""

    accepted: bool
    row: int | None = None
    reason: str | None = None


class Step(NamedTuple):
    """A step of a walk: from a goal by one of its rules to one of the rule's arguments, all by their places from 0."""

    goal: int
    rule: int
    argument: int


@dataclass(frozen=True)
class Sizes:
    """How large the terms of a type are. `greatest` is the greatest size of one, 0 if there is none, and None if `is_over` or
    `is_infinite`."""

    greatest: int | None
    walk: tuple[Step, ...] = ()
    """Shows why the sizes have no bound. Otherwise it is empty."""

    @property
    def is_infinite(self) -> bool:
        """Whether there is a larger term for each number."""
        return bool(self.walk)

    @property
    def is_over(self) -> bool:
        """Whether there is a greatest size, and it is over 1,000,000,000."""
        return self.greatest is None and not self.walk


class Event(NamedTuple):
    """A worker claims or files a row."""

    kind: str
    worker: int
    row: int
