"""Certificates as trees: each row with the arrows that it points at, and with the rows of its arguments.

The certificate and the grammar are those of one goal. So the rows and members are goals of the grammar, whose rules tell the arguments.
"""

from __future__ import annotations

from collections.abc import Iterator
from typing import TypedDict

from clsynth.certificates import Block, Certificate, Empty, Inhabited, Member, Row
from clsynth.errors import QueryError
from clsynth.grammars import Grammar, Rule
from clsynth.lacking import Lacking
from clsynth.session import Session
from clsynth.types import Arrow, Intersection, Type, intersection, omega

__all__ = ["Json", "certificate_content"]

Json = dict[str, object]


class _Blocked(TypedDict):
    """Which argument of the arrows of a set is below which member."""

    argument: int
    member: int


class _Arrows:
    """The arrows of components: their paths with enough leading arrows."""

    def __init__(self, session: Session) -> None:
        self._session = session
        self._paths: dict[str, list[Type]] = {}
        self._arrows: dict[tuple[str, int], list[Type]] = {}
        self._used: dict[str, Json] = {}

    def of(self, component: str, count: int) -> list[Type]:
        """Those of the component that take so many arguments, in their order."""
        if component not in self._paths:
            self._paths[component] = [Type.parse(path) for path in self._session.paths(component)]
        if (component, count) not in self._arrows:
            self._arrows[component, count] = [path for path in self._paths[component] if _leads(path, count)]
        return self._arrows[component, count]

    def sources(self, component: str, count: int, positions: tuple[int, ...], argument: int) -> Type:
        """The intersection of what these arrows take as an argument."""
        arrows = self.of(component, count)
        taken = [_source(arrows[position], argument) for position in positions]
        return intersection(*taken) if taken else omega

    def use(self, component: str, count: int, positions: tuple[int, ...]) -> None:
        """Says that the page shows these arrows."""
        arrows = self.of(component, count)
        used = self._used.setdefault(f"{component} {count}", {"of": len(arrows), "paths": {}})
        paths = used["paths"]
        assert isinstance(paths, dict)
        paths.update((position, str(arrows[position])) for position in positions)

    def used(self) -> dict[str, Json]:
        """The texts of the arrows that the page shows, by their components and numbers of arguments."""
        return self._used


def certificate_content(session: Session, certificate: Certificate, grammar: Grammar, lacking: Lacking) -> Json:
    """What the page shows of the certificate that the program made for the grammar's goal 0."""
    arrows = _Arrows(session)
    if isinstance(certificate, Inhabited):
        told = _rows(certificate, grammar, arrows)
    else:
        told = _Members(session, certificate, grammar, arrows, lacking).content()
    return {**told, "arrows": arrows.used(), "lines": "\n".join(certificate.lines())}


def _rows(certificate: Inhabited, grammar: Grammar, arrows: _Arrows) -> Json:
    goals = {goal.type: goal for goal in grammar.goals}
    places = {row.type: place for place, row in enumerate(certificate.rows)}
    rules = {row.type: grammar.least_rule(goals[row.type]) for row in certificate.rows}
    return {"rows": [_row(row, rules[row.type], grammar, places, arrows) for row in certificate.rows]}


def _row(row: Row, rule: Rule | None, grammar: Grammar, places: dict[str, int], arrows: _Arrows) -> Json:
    """The row, which was made by this rule."""
    if row.positions:
        arrows.use(row.component, row.argument_count, row.positions)
    return {
        "type": row.type, "component": row.component, "count": row.argument_count, "positions": row.positions,
        "arguments": [places[grammar.goals[argument].type] for argument in (rule.arguments if rule else ())],
    }


class _Members:
    """The members of a certificate, each with what blocks it."""

    def __init__(self, session: Session, certificate: Empty, grammar: Grammar, arrows: _Arrows, lacking: Lacking) -> None:
        self._session = session
        self._certificate = certificate
        self._grammar = grammar
        self._goals = {goal.type: goal for goal in grammar.goals}
        self._places = {member.type: place for place, member in enumerate(certificate.members)}
        self._arrows = arrows
        self._lacking = lacking

    def content(self) -> Json:
        return {"members": [self._member(member) for member in self._certificate.members]}

    def _member(self, member: Member) -> Json:
        return {
            "type": member.type, "layers": [str(path) for path in _paths_of(Type.parse(member.type))],
            "lacks": self._lacking.of(member.type), "blocks": [self._block(member, block) for block in member.blocks],
        }

    def _block(self, member: Member, block: Block) -> Json:
        last = len(block.layers) - 1
        layers = [[self._set(member, block, positions, layer == last) for positions in sets] for layer, sets in enumerate(block.layers)]
        return {"component": block.component, "count": block.argument_count, "layers": layers}

    def _set(self, member: Member, block: Block, positions: tuple[int, ...], is_last: bool) -> Json:
        self._arrows.use(block.component, block.argument_count, positions)
        return {"positions": positions, "blocked": self._blocked(member, block, positions) if is_last else None}

    def _blocked(self, member: Member, block: Block, positions: tuple[int, ...]) -> _Blocked | None:
        """What blocks a set. It gives one of the goal's rules. Where there are several, the program is asked which arguments it has."""
        candidates = self._candidates(member, block)
        for argument, goal in dict.fromkeys(it for rule in candidates for it in rule):
            if len(candidates) == 1 or self._is_below(block, positions, argument, goal):
                return {"argument": argument, "member": self._places[goal]}
        return None

    def _candidates(self, member: Member, block: Block) -> list[list[tuple[int, str]]]:
        """Of each rule of the goal by the component, the arguments that are members: their places and types."""
        rules = [it for it in self._goals[member.type].rules if it.component == block.component and len(it.arguments) == block.argument_count]
        return [list(self._without_terms(rule.arguments)) for rule in rules]

    def _without_terms(self, arguments: tuple[int, ...]) -> Iterator[tuple[int, str]]:
        for place, argument in enumerate(arguments):
            if self._grammar.goals[argument].rank is None:
                yield place, self._grammar.goals[argument].type

    def _is_below(self, block: Block, positions: tuple[int, ...], argument: int, goal: str) -> bool:
        taken = self._arrows.sources(block.component, block.argument_count, positions, argument)
        try:
            return self._session.is_subtype(taken, goal)
        except QueryError:
            return False


def _leads(path: Type, count: int) -> bool:
    for _ in range(count):
        if not isinstance(path, Arrow):
            return False
        path = path.target
    return True


def _source(path: Type, argument: int) -> Type:
    for _ in range(argument):
        assert isinstance(path, Arrow)
        path = path.target
    assert isinstance(path, Arrow)
    return path.source


def _paths_of(goal: Type) -> list[Type]:
    """The paths of a goal, which stand in it with `&` between them."""
    paths: list[Type] = []
    while isinstance(goal, Intersection):
        paths.append(goal.right)
        goal = goal.left
    return [goal, *reversed(paths)]
