"""Which components can be applied to terms, seen by the heads of types alone.

A type can have a term only if, for each of its paths, some component has a path with the same number of sources left and with the same
head, or one below it by `sub`, once it is applied to arguments whose types can have a term. What stands inside of constructors isn't
looked at, nor whether several paths are met at once. So a component that is of no use may pass for one that is. The other way round there
is no doubt: a type that can't have a term by this has none.
"""

from __future__ import annotations

import math
from collections.abc import Iterable, Iterator
from dataclasses import dataclass
from itertools import product

from clsynth.coarse import Path, Paths
from clsynth.survey import Survey

__all__ = ["Blocked", "blocked_components"]

_CHOICES = 256
"""With more choices for the variables of a path, each type that is a variable counts as one that has a term."""

_Met = tuple[str, int]
"""A head, and how many sources stand before it."""
_Need = frozenset[_Met]
"""What an argument has to meet."""


@dataclass(frozen=True)
class Blocked:
    """Why a component can't be applied: its argument of this number, counted from 1, would have this head, with so many sources before it."""

    argument: int
    head: str
    sources: int


@dataclass
class _Arrow:
    """A path of a component, and to how many arguments it can be applied."""

    component: int
    needs: tuple[_Need, ...]
    head: str
    applied: int = 0

    def met(self) -> Iterator[_Met]:
        """What it meets, applied to each number of arguments that it can be applied to."""
        return ((self.head, len(self.needs) - count) for count in range(self.applied + 1))


def blocked_components(survey: Survey) -> dict[int, Blocked]:
    """Why components can't be applied in any of their arrows, by their places in the survey. One that may be an argument itself, as a
    function, is left out."""
    arrows = [arrow for place, component in enumerate(survey.components) for arrow in _arrows(survey, place, component.type)]
    search = _Search(survey, arrows)
    functions = {met for need in _all_needs(survey, arrows) for met in need if met[1]}
    found: dict[int, Blocked] = {}
    for arrow in arrows:
        missing = search.missing(arrow)
        if missing:
            found.setdefault(arrow.component, Blocked(arrow.applied + 1, *missing))
    for arrow in arrows:
        if search.missing(arrow) is None or any(it in functions for met in arrow.met() for it in search.above(met)):
            found.pop(arrow.component, None)
    return found


class _Search:
    """What can be met, found from what needs no argument on."""

    def __init__(self, survey: Survey, arrows: list[_Arrow]) -> None:
        self._order = survey.order
        self._met: set[_Met] = set()
        self._waiting: dict[_Met, list[_Arrow]] = {}
        ready = arrows
        while ready:
            ready = [released for arrow in ready for met in self._apply(arrow) for released in self._meet(met)]

    def above(self, met: _Met) -> Iterator[_Met]:
        """What is met with it, since its head is above."""
        head, sources = met
        return ((upper, sources) for upper in self._order.above(head))

    def missing(self, arrow: _Arrow) -> _Met | None:
        """What can't be met of its next argument, and nothing if it can be applied to all."""
        if arrow.applied == len(arrow.needs):
            return None
        return next(met for met in sorted(arrow.needs[arrow.applied]) if met not in self._met)

    def _apply(self, arrow: _Arrow) -> Iterator[_Met]:
        """Applies it to as many arguments as there are. It waits for what is missing of the next."""
        left = len(arrow.needs) - arrow.applied
        yield arrow.head, left
        while left and arrow.needs[arrow.applied] <= self._met:
            arrow.applied += 1
            left -= 1
            yield arrow.head, left
        missing = self.missing(arrow)
        if missing:
            self._waiting.setdefault(missing, []).append(arrow)

    def _meet(self, met: _Met) -> Iterator[_Arrow]:
        """Takes what is met. These arrows have waited for it."""
        for it in self.above(met):
            if it not in self._met:
                self._met.add(it)
                yield from self._waiting.pop(it, ())


def _all_needs(survey: Survey, arrows: list[_Arrow]) -> Iterator[_Need]:
    for arrow in arrows:
        yield from arrow.needs
    for goal in survey.goals:
        yield _need(goal.type, {})


def _arrows(survey: Survey, component: int, type: Paths) -> list[_Arrow]:
    """The paths of a component, those that are alike once, for each choice of the variables that are a source or the target."""
    found = dict.fromkeys(arrow for path in type for arrow in _choices(survey, path))
    return [_Arrow(component, needs, head) for needs, head in found]


def _choices(survey: Survey, path: Path) -> Iterator[tuple[tuple[_Need, ...], str]]:
    variables = sorted({head for head in _bare_heads(path) if head[0] == "$"})
    if not variables:
        yield tuple([_need(source, {}) for source in path.sources]), path.head
        return
    kinds = [[line.type for line in survey.kinds.get(variable[1:], ())] for variable in variables]
    if math.prod(map(len, kinds)) <= _CHOICES:
        for types in product(*kinds):
            yield from _chosen(path, dict(zip(variables, types)))
        return
    for line in survey.kinds.get(path.head[1:], ()) if path.head[0] == "$" else ():
        yield from _chosen(path, {path.head: line.type})
    if path.head[0] != "$":
        yield from _chosen(path, {})


def _bare_heads(path: Path) -> Iterator[str]:
    yield path.head
    for source in path.sources:
        yield from (part.head for part in source)


def _chosen(path: Path, choice: dict[str, Paths]) -> Iterator[tuple[tuple[_Need, ...], str]]:
    """What the path comes to if variables stand for these types. A source that is another variable needs nothing."""
    needs = tuple([_need(source, choice) for source in path.sources])
    if path.head[0] != "$":
        yield needs, path.head
        return
    for end in choice[path.head]:
        yield needs + tuple([_need(source, choice) for source in end.sources]), end.head


def _need(type: Iterable[Path], choice: dict[str, Paths]) -> _Need:
    need = []
    for path in type:
        if path.head[0] != "$":
            need.append((path.head, len(path.sources)))
        else:
            need += [(end.head, len(path.sources) + len(end.sources)) for end in choice.get(path.head, ())]
    return frozenset(need)
