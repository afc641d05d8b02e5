"""Filters of a repository, which say by the way that terms are built which ones are wanted.

    once = repository.filter("once", ["plain", "over"])
    once.leaf("f", "function")
    once.app("function", "over", None)
    once.app("function", EVERY, "over")
    once.other("plain")

A filter gives each term a state, or none, from the components upwards, and accepts a term with an accepting state. docs/LANGUAGE.md says
what each line means. Of the lines that match the first one counts.
"""

from __future__ import annotations

from collections.abc import Callable, Container, Iterable

from clsynth.errors import BadName, RepositoryFault, TooManyStates
from clsynth.limits import MAX_STATES
from clsynth.names import check_name

__all__ = ["EVERY", "Filter"]

EVERY = "_"
"""Stands for every state in `Filter.app`."""
_NONE = "none"


class Filter:
    """A filter, as it was declared. Each method adds a line."""

    def __init__(self, name: str, accepts: Iterable[str], components: Container[str], declare: Callable[[list[str]], None]) -> None:
        self._name = name
        self._accepts = tuple(accepts)
        self._components = components
        self._declare = declare
        self._states: dict[str, None] = {}
        if not self._accepts:
            raise RepositoryFault(f"the filter {name!r} has no accepting state, and needs at least one")
        self._add(f"filter {name} accepts {' '.join(map(_checked, self._accepts))}", self._accepts)

    @property
    def name(self) -> str:
        """Its name."""
        return self._name

    @property
    def accepts(self) -> tuple[str, ...]:
        """The accepting states."""
        return self._accepts

    @property
    def states(self) -> tuple[str, ...]:
        """The states that its lines name, in the order in which they first came."""
        return tuple(self._states)

    def leaf(self, component: str, state: str | None) -> None:
        """Says the state of a component that was declared before. None says that it has none."""
        if component not in self._components:
            raise RepositoryFault(f"no component {component!r} is declared before this line of the filter {self._name!r}")
        self._add(f"leaf {self._name} {component} -> {_said(state)}", (state,))

    def app(self, function: str, argument: str, state: str | None) -> None:
        """Says the state of an application by those of the function and of the argument, each of which may be `EVERY`. None says that the
        application has none."""
        self._add(f"app {self._name} {_named(function)} {_named(argument)} -> {_said(state)}", (function, argument, state))

    def other(self, state: str) -> None:
        """Says the state where no other line matches."""
        self._add(f"other {self._name} {_checked(state)}", (state,))

    def __str__(self) -> str:
        return self._name

    def __repr__(self) -> str:
        return f"<filter {self._name}>"

    def _add(self, line: str, named: Iterable[str | None]) -> None:
        states = {**self._states, **dict.fromkeys(state for state in named if state is not None and state not in (EVERY, _NONE))}
        if len(states) > MAX_STATES:
            raise TooManyStates(f"the filter {self._name!r}", len(states), MAX_STATES)
        self._declare([line])
        self._states = states


def _checked(state: str) -> str:
    if state in (EVERY, _NONE):
        raise BadName(f"{state!r} is no name of a state")
    return check_name(state)


def _named(state: str) -> str:
    return state if state == EVERY else _checked(state)


def _said(state: str | None) -> str:
    return _NONE if state is None or state == _NONE else _checked(state)
