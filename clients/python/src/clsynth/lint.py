r"""Warnings about a repository, found without the program.

    for warning in lint("comp x : Int\ncomp f : Imt -> B\n"):
        print(warning.shown("lists.cls"))

    lists.cls:2:10: warning: `Imt` is wanted, and no component makes it
        comp f : Imt -> B
                 ^
        Did you mean `Int`?

What a warning says is so, whatever is asked. A hint is about what may be meant so.
"""

from __future__ import annotations

import gc
import re
import warnings
from collections.abc import Collection, Iterable, Iterator
from contextlib import contextmanager
from functools import cached_property, lru_cache
from typing import Any

from clsynth.coarse import PRODUCT
from clsynth.diagnostics import Diagnostic, Severity, one_of
from clsynth.explain import diagnose_line
from clsynth.queries import Query
from clsynth.reach import Blocked, blocked_components
from clsynth.repository import Repository
from clsynth.roles import Roles
from clsynth.similar import SlipIndex
from clsynth.survey import Survey, TypedLine
from clsynth.tokens import BLANKS, bytes_of, text_of
from clsynth.transcripts import Input

__all__ = ["RepositoryWarning", "input_of", "issue", "lint", "lint_input", "warnings_of"]

_MOST_NAMES = 50_000
"""With more names no similar ones are looked for."""
_OFTEN = 3
"""A name that stands so often may be meant by one that stands once."""
_PART = re.compile(r"[A-Za-z0-9_$]", re.ASCII)
"""What stands beside a name only if it is a part of a longer one, or of a variable."""
_MOST_WARNINGS = 20
"""So many warnings are issued when a session is opened."""


class RepositoryWarning(UserWarning):
    """What lint says of the repository of a session."""


def lint(repository: Repository | str, queries: Iterable[str | Query[Any]] = ()) -> list[Diagnostic]:
    """Errors, warnings and hints about the lines of a repository and of queries, by line. Lines are counted from 1. Those of the queries
    follow behind the line `end`, which may be left out."""
    return lint_input(input_of(repository, queries))


def input_of(repository: Repository | str, queries: Iterable[str | Query[Any]] = ()) -> Input:
    """The lines of a repository, the line `end` if it isn't there, and those of queries behind it."""
    lines = str(repository).rstrip("\n").split("\n")
    if not any(line.strip(BLANKS) == "end" for line in lines):
        lines.append("end")
    for query in queries:
        lines += query.split("\n") if isinstance(query, str) else query.lines
    return Input(bytes_of("\n".join(lines)))


def lint_input(given: Input) -> list[Diagnostic]:
    """The same about an input as the program reads it."""
    with _without_collector():
        return _sorted(_Lint(given).all())


def issue(texts: Iterable[str], stacklevel: int) -> None:
    """Issues each text as a warning of Python."""
    for text in texts:
        warnings.warn(text, RepositoryWarning, stacklevel + 1)


@lru_cache(maxsize=4)
def warnings_of(repository: str) -> tuple[str, ...]:
    """The warnings about a repository as a session issues them: the first ones, and how many others there are."""
    with _without_collector():
        found = _sorted(_Lint(input_of(repository)).warnings())
    texts = [it.shown("repository") for it in found[:_MOST_WARNINGS]]
    others = len(found) - len(texts)
    return (*texts, *([f"{others:,} further warnings: `lint` and the command clsynth-check have all"] if others else ()))


@contextmanager
def _without_collector() -> Iterator[None]:
    """Types are many small objects without cycles. The collector would go through all of them again and again, a third of the time."""
    was_enabled = gc.isenabled()
    gc.disable()
    try:
        yield
    finally:
        if was_enabled:
            gc.enable()


def _sorted(found: Iterable[Diagnostic]) -> list[Diagnostic]:
    return sorted(found, key=lambda it: (it.line, it.place or 0))


class _Lint:
    """What is found about an input."""

    def __init__(self, given: Input) -> None:
        self._given = given
        self._survey = Survey(given)
        self._roles = Roles(self._survey)
        self._lacking = self._roles.lacking()

    def all(self) -> Iterator[Diagnostic]:
        """Errors, warnings and hints."""
        for line, fault in self._survey.faults:
            yield diagnose_line(self._given, line, fault)
        yield from self.warnings()
        yield from self._hints()

    def warnings(self) -> Iterator[Diagnostic]:
        """Warnings alone."""
        for name in self._lacking:
            line = self._roles.wanted[name][0].line
            yield self._of(Severity.WARNING, line, name, f"`{name}` is wanted, and no component makes it", self._meant(name, self._roles.had))
        for place, blocked in blocked_components(self._survey).items():
            if blocked.head not in self._lacking:
                yield self._of_blocked(self._survey.components[place], blocked)
        yield from self._unused_lines()

    def _hints(self) -> Iterator[Diagnostic]:
        told = {*self._lacking, *(near for name in self._lacking for near in self._slips.near(name))}
        for name in self._roles.unwanted() if self._survey.has_queries else ():
            if name not in told:
                told.add(name)
                line, meant = self._roles.made[name].line, self._meant(name, self._roles.wanted)
                yield self._of(Severity.HINT, line, name, f"`{name}` is made, and nothing wants it", meant)
        often = [name for name in self._roles.standing if self._survey.counts[name] >= _OFTEN]
        for name in sorted(self._roles.standing - told):
            meant = self._meant(name, often) if self._survey.counts[name] == 1 else ""
            if meant:
                yield self._of(Severity.HINT, self._first_line(name), name, f"`{name}` stands once", meant)

    def _of_blocked(self, component: TypedLine, blocked: Blocked) -> Diagnostic:
        made = "a product" if blocked.head == PRODUCT else f"`{blocked.head}`"
        wanted = f"a function to {made}" if blocked.sources else made
        words = f"`{component.name}` can't be applied: it takes {wanted} as argument {blocked.argument}, and no term has that"
        return self._of(Severity.WARNING, component.line, blocked.head, words)

    def _unused_lines(self) -> Iterator[Diagnostic]:
        roles, survey = self._roles, self._survey
        for name, kind in survey.kinds.items():
            if name not in roles.variables and kind:
                yield self._of(Severity.WARNING, kind[0].line, name, f"no type has the variable `${name}`")
        for name, (_, line) in survey.variances.items():
            if name not in roles.standing:
                yield self._of(Severity.WARNING, line, name, f"no type has the constructor `{name}`", self._meant(name, roles.standing))
        above, below = survey.order.upward(roles.standing), survey.order.downward(roles.standing)
        for lower, upper, line in survey.below:
            if lower not in above:
                words = f"no type has the constructor `{lower}` or one below it"
                yield self._of(Severity.WARNING, line, lower, words, self._meant(lower, roles.standing))
            elif upper not in below and survey.has_queries:
                words = f"no type has the constructor `{upper}` or one above it"
                yield self._of(Severity.WARNING, line, upper, words, self._meant(upper, roles.standing))

    def _of(self, severity: Severity, line: int, name: str, words: str, note: str = "") -> Diagnostic:
        text = text_of(self._given.lines[line - 1])
        return Diagnostic(severity, line, text, _place(text, name), words, (note,) if note else ())

    def _meant(self, name: str, names: Collection[str]) -> str:
        """Which of the names may be meant by this one."""
        found = [f"`{other}`" for other in self._slips.near(name) if other in names]
        return f"Did you mean {one_of(found)}?" if found else ""

    def _first_line(self, name: str) -> int:
        roles = self._roles
        places = [roles.made.get(name), roles.mentioned.get(name), *roles.wanted.get(name, [])[:1]]
        return min(place.line for place in places if place)

    @cached_property
    def _slips(self) -> SlipIndex:
        names = self._roles.standing
        return SlipIndex(sorted(names) if len(names) <= _MOST_NAMES else ())


def _place(line: str, name: str) -> int | None:
    """Where the name first stands behind the first word, and rather in a type than before one."""
    start = max(line.find(":"), line.find("="), 0)
    return next((place for begin in (start, 0) for place in _places(line, name, begin) if place > 0), None)


def _places(line: str, name: str, place: int) -> Iterator[int]:
    """Where the name stands from a place on."""
    while (place := line.find(name, place)) >= 0:
        end = place + len(name)
        if not (_PART.match(line, place - 1) if place else None) and not _PART.match(line, end):
            yield place
        place = end
