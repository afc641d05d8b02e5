"""What is missing where no term has a type: the constructors that the members of its certificate want and that nothing makes.

    print(missing(session, repository, "B").shown())

    no term has B
    Imt is wanted, and no component makes it
        comp f : Imt -> B
        Did you mean Int?
"""

from __future__ import annotations

from dataclasses import dataclass

from clsynth.certificates import Empty
from clsynth.grammars import Goal, Grammar
from clsynth.lacking import Lacking
from clsynth.repository import Repository
from clsynth.session import Session
from clsynth.types import TypeLike

__all__ = ["Lack", "Missing", "missing"]

_MOST_GOALS = 20
"""So many types are shown that no term has."""


@dataclass(frozen=True)
class Lack:
    """A constructor that nothing makes."""

    constructor: str
    wanted_by: tuple[str, ...]
    """The lines of the components that take it. It may be none: then it is asked for alone."""
    similar: tuple[str, ...]
    """Constructors that may be had and are written much like it."""
    is_on_the_way: bool
    """Whether a member wants it to which a way leads from the type by members alone. What the other members want isn't needed, since there
    is another way."""


@dataclass(frozen=True)
class Missing:
    """What is missing for a type."""

    goal: str
    is_inhabited: bool
    """Whether some term has the type. Then nothing is missing."""
    lacks: tuple[Lack, ...] = ()
    """The constructors that members of the certificate want and that nothing makes."""
    goals: tuple[Goal, ...] = ()
    """The members on the way, as goals: each rule of one has another one among its arguments."""

    def shown(self) -> str:
        """The same in words."""
        if self.is_inhabited:
            return f"some term has {self.goal}"
        needed = [lack for lack in self.lacks if lack.is_on_the_way]
        others = [lack for lack in self.lacks if not lack.is_on_the_way]
        lines = [f"no term has {self.goal}", *([] if needed else self._goal_lines())]
        lines += [line for lack in needed for line in _lack_lines(lack)]
        lines += ["Not needed, since there is another way:"] if others else []
        lines += [f"    {line}" for lack in others for line in _lack_lines(lack)]
        return "\n".join(lines)

    def _goal_lines(self) -> list[str]:
        lines = ["Each constructor on the way is made. But what leads to one of these types takes another one of them:"]
        for goal in self.goals[:_MOST_GOALS]:
            components = dict.fromkeys(rule.component or "any term" for rule in goal.rules)
            lines.append(f"    {goal.type}, by {', '.join(components)}" if components else f"    {goal.type}, to which nothing leads")
        others = len(self.goals) - _MOST_GOALS
        return [*lines, *([f"    {others} more"] if others > 0 else [])]


def _lack_lines(lack: Lack) -> list[str]:
    similar = [f"    Did you mean {' or '.join(lack.similar)}?"] if lack.similar else []
    return [f"{lack.constructor} is wanted, and no component makes it", *(f"    {line}" for line in lack.wanted_by), *similar]


def missing(session: Session, repository: Repository | str, goal: TypeLike) -> Missing:
    """What is missing for the type. The repository is that of the session. Raises the errors of `Session.certify`."""
    certificate = session.certify(goal)
    if not isinstance(certificate, Empty):
        return Missing(str(goal), True)
    goals = _goals_on_the_way(session.grammar(goal))
    lacking = Lacking(repository, [member.type for member in certificate.members])
    on_the_way = {name for it in goals for name in lacking.of(it.type)}
    lacks = tuple(Lack(name, lacking.users(name), lacking.similar(name), name in on_the_way) for name in lacking.names)
    return Missing(str(goal), False, lacks, goals)


def _goals_on_the_way(grammar: Grammar) -> tuple[Goal, ...]:
    """The goals without terms to which rules lead from the first goal by such goals alone."""
    numbers, known = [0], {0}
    for number in numbers:
        for argument in (argument for rule in grammar.goals[number].rules for argument in rule.arguments):
            if argument not in known and grammar.goals[argument].rank is None:
                known.add(argument)
                numbers.append(argument)
    return tuple(grammar.goals[number] for number in numbers)
