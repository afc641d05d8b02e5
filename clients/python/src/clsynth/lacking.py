"""The constructors that types want and that no component makes. A type that wants one has no term: a component would have to lead to it."""

from __future__ import annotations

from collections.abc import Sequence

from clsynth.lint import input_of
from clsynth.repository import Repository
from clsynth.roles import Roles
from clsynth.similar import SlipIndex
from clsynth.survey import Survey
from clsynth.tokens import text_of

__all__ = ["Lacking"]


class Lacking:
    """What some types want and nothing makes. A constructor is made too if one below it is."""

    def __init__(self, repository: Repository | str, types: Sequence[str]) -> None:
        # The types stand behind the repository, as if they were asked for.
        self._survey = Survey(input_of(repository, [f"inhabit {type}" for type in types]))
        self._roles = Roles(self._survey)
        self._slips = SlipIndex(sorted(self._roles.had))
        self._by_type: dict[str, list[str]] = {type: [] for type in types}
        made = self._survey.order.upward(self._roles.made)
        first = len(self._survey.given.repository) + 1
        for name, wanted in self._roles.wanted.items():
            lines = dict.fromkeys(by.line for by in wanted if by.word == "inhabit")
            for line in lines if name not in made else ():
                self._by_type[types[line - first]].append(name)
        lacking = {name for names in self._by_type.values() for name in names}
        self.names = [name for name in self._roles.wanted if name in lacking]
        """The constructors that the types want and nothing makes, as they come in the repository, and then in the types."""

    def of(self, type: str) -> list[str]:
        """The constructors that this one of the types wants and nothing makes, each once."""
        return self._by_type[type]

    def users(self, name: str) -> tuple[str, ...]:
        """The lines of the components that take the constructor."""
        lines = dict.fromkeys(by.line for by in self._roles.wanted[name] if by.word == "comp")
        return tuple(text_of(self._survey.given.lines[line - 1]) for line in lines)

    def similar(self, name: str) -> tuple[str, ...]:
        """The constructors that may be had and are written much like this one."""
        return tuple(self._slips.near(name))
