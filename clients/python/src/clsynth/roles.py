"""Which constructors are made by components, and which are wanted by them or by queries.

A component makes the constructors of its target, also those inside of others there. It wants those of the types that it takes, and a
query wants those of its goal. A type has a term only if each constructor that it wants is made, or one below it is. A constructor under a
contravariant one, or in what a function takes that is itself taken, is neither made nor wanted: it is mentioned.
"""

from __future__ import annotations

from collections.abc import Iterable
from enum import Enum

from clsynth.coarse import PRODUCT, Paths
from clsynth.survey import Survey, TypedLine

__all__ = ["Roles"]


class _Role(Enum):
    COMPONENT = 0
    """The type of a component: its sources are wanted, and the rest is made."""
    MADE = 1
    WANTED = 2
    MENTIONED = 3


class Roles:
    """The constructors by what they are for."""

    def __init__(self, survey: Survey) -> None:
        self.made: dict[str, TypedLine] = {}
        """Those that are made, and where first."""
        self.wanted: dict[str, list[TypedLine]] = {}
        """Those that are wanted, and where. Behind the type of a kind stand the components that want it by the variable."""
        self.mentioned: dict[str, TypedLine] = {}
        """Those that are mentioned, and where first."""
        self._order = survey.order
        self._contra = {name for name, (way, _) in survey.variances.items() if way == "contra"}
        self._by_variable: dict[tuple[str, _Role], list[TypedLine]] = {}
        for role, lines in ((_Role.COMPONENT, survey.components), (_Role.WANTED, survey.goals), (_Role.MENTIONED, survey.compared)):
            for line in lines:
                self._walk(line, line.type, role)
        for (variable, role), users in list(self._by_variable.items()):
            for line in survey.kinds.get(variable, ()):
                self._walk(line, line.type, role, users)
        self.variables = {variable for variable, _ in self._by_variable}
        """The variables that stand in types."""
        self.had = survey.order.upward([*self.made, *self.mentioned])
        """The constructors that may be had: those that are made or mentioned, and those above one that is. A function that is taken may be
        given what nothing makes."""

    @property
    def standing(self) -> set[str]:
        """The constructors that stand in types."""
        return {*self.made, *self.wanted, *self.mentioned}

    def lacking(self) -> list[str]:
        """The constructors that are wanted, and can't be had."""
        return [name for name in self.wanted if name not in self.had]

    def unwanted(self) -> list[str]:
        """The constructors that are made, and that nothing wants or mentions, nor one above them."""
        used = self._order.downward([*self.wanted, *self.mentioned])
        return [name for name in self.made if name not in used]

    def _walk(self, by: TypedLine, type: Paths, role: _Role, users: Iterable[TypedLine] = ()) -> None:
        waiting = [(type, role)]
        while waiting:
            paths, role = waiting.pop()
            taken = _Role.WANTED if role is _Role.COMPONENT else _Role.MENTIONED
            inside = _Role.MADE if role is _Role.COMPONENT else role
            for sources, head, arguments in paths:
                if sources:
                    waiting += [(source, taken) for source in sources]
                if arguments:
                    part = _Role.MENTIONED if head in self._contra else inside
                    waiting += [(argument, part) for argument in arguments]
                if head[0] == "$":
                    self._by_variable.setdefault((head[1:], role), []).append(by)
                elif head != PRODUCT:
                    self._mark(head, role, by, users)

    def _mark(self, name: str, role: _Role, by: TypedLine, users: Iterable[TypedLine]) -> None:
        if role is _Role.WANTED:
            self.wanted.setdefault(name, []).extend((by, *users))
        elif role is _Role.MENTIONED:
            self.mentioned.setdefault(name, by)
        else:
            self.made.setdefault(name, by)

