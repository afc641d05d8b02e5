"""Why a term has a type, or which part of it lacks what.

    print(why(session, "uniq(reverse(sort(names)))", "Lines & Unique").shown())

    no
    uniq(reverse(sort(names))) lacks Lines and Unique. It has omega alone.
    └─ uniq makes Lines & Unique of Lines & Sorted.
       └─ Argument 1, reverse(sort(names)), lacks Sorted. It has Lines.
          └─ No arrow of reverse with 1 argument leads there.
"""

from __future__ import annotations

from collections.abc import Iterator
from dataclasses import dataclass

from clsynth.session import Session
from clsynth.terms import Term, TermLike, as_term
from clsynth.types import Arrow, Intersection, Type, TypeLike, arrow, as_type, intersection, omega

__all__ = ["ArrowReason", "Reason", "why"]

_MOST_ARROWS = 2
"""So many arrows of a component are gone into: those to which the fewest arguments are lacking."""
_MOST_PARTS = 8
"""So many parts of a type are shown."""


@dataclass(frozen=True)
class ArrowReason:
    """An arrow that leads to what a term lacks: what it takes and makes, and why arguments don't have what it takes, by their places."""

    sources: tuple[Type, ...]
    target: Type
    lacking: tuple[tuple[int, Reason], ...]


@dataclass(frozen=True)
class Reason:
    """Whether a term has a type."""

    term: Term
    goal: Type
    has: tuple[Type, ...]
    """The parts of what the term has: what its component makes of arguments as it has them. Nothing stands for `omega`."""
    lacks: tuple[Type, ...]
    """The parts of the type that the term hasn't. If there are none, it has the type."""
    arrows: tuple[ArrowReason, ...] = ()
    """Some arrows of the component that lead to a part that is lacking."""
    arrow_count: int = 0
    """How many there are of them."""

    @property
    def holds(self) -> bool:
        """Whether the term has the type."""
        return not self.lacks

    def shown(self) -> str:
        """`yes` or `no`, and the reason as a tree."""
        if self.holds:
            return f"yes\n{self.term} has {_text(self.has)}."
        return "\n".join(["no", f"{self.term} {self._difference()}", *_branches(self, {(self.term, self.goal)})])

    def _difference(self) -> str:
        return f"lacks {' and '.join(map(str, self.lacks))}. It has {_text(self.has)}."


def why(session: Session, term: TermLike, goal: TypeLike) -> Reason:
    """Whether the term has the type, and if not, why. It is found by queries of the session. Raises the errors of `Session.has_type`."""
    session.has_type(term, goal)
    return _Search(session).reason(as_term(term), as_type(goal))


@dataclass(frozen=True)
class _Way:
    """The arrows of a component that take the same, as one: what they take, and all that they make of it."""

    sources: tuple[Type, ...]
    targets: tuple[Type, ...]


class _Search:
    """Looks for reasons. What was asked once isn't asked again."""

    def __init__(self, session: Session) -> None:
        self._session = session
        self._paths: dict[str, list[Type]] = {}
        self._typed: dict[tuple[Term, Type], bool] = {}
        self._reasons: dict[tuple[Term, Type], Reason] = {}

    def reason(self, term: Term, goal: Type) -> Reason:
        """Why the term has the type, or hasn't."""
        key = term, goal
        if key not in self._reasons:
            self._reasons[key] = self._found(term, goal)
        return self._reasons[key]

    def _found(self, term: Term, goal: Type) -> Reason:
        ways = self._ways(term)
        has = tuple(target for way in ways if not self._lacking(term, way) for target in way.targets)
        lacks = tuple(part for part in _parts(goal) if not self._has(term, part))
        leading = [way for way in ways if self._lacking(term, way) and self._leads(way, lacks)]
        if lacks and not leading and self._leads(_together(ways), lacks):
            leading = [way for way in ways if self._lacking(term, way)]
        leading.sort(key=lambda way: len(self._lacking(term, way)))
        arrows = tuple(self._arrow(term, way, lacks) for way in leading[:_MOST_ARROWS])
        return Reason(term, goal, has, lacks, arrows, len(leading))

    def _arrow(self, term: Term, way: _Way, lacks: tuple[Type, ...]) -> ArrowReason:
        targets = [target for target in way.targets if any(self._session.is_subtype(target, part) for part in lacks)]
        lacking = tuple((place, self.reason(term.arguments[place], way.sources[place])) for place in self._lacking(term, way))
        return ArrowReason(way.sources, intersection(*(targets or way.targets)), lacking)

    def _ways(self, term: Term) -> list[_Way]:
        """The arrows of the term's component with as many arguments as the term has."""
        made: dict[tuple[Type, ...], list[Type]] = {}
        for path in self._paths_of(term.component):
            sources, target = _split(path, len(term.arguments))
            if target is not None:
                made.setdefault(sources, []).append(target)
        return [_Way(sources, tuple(targets)) for sources, targets in made.items()]

    def _paths_of(self, component: str) -> list[Type]:
        if component not in self._paths:
            self._paths[component] = [Type.parse(path) for path in self._session.paths(component)]
        return self._paths[component]

    def _lacking(self, term: Term, way: _Way) -> list[int]:
        """The places of the arguments that haven't what the arrow takes."""
        return [place for place, source in enumerate(way.sources) if not self._has(term.arguments[place], source)]

    def _has(self, term: Term, type: Type) -> bool:
        key = term, type
        if key not in self._typed:
            self._typed[key] = self._session.has_type(term, type)
        return self._typed[key]

    def _leads(self, way: _Way, parts: tuple[Type, ...]) -> bool:
        """Whether all that the arrow makes is below one of the parts."""
        return bool(way.targets) and any(self._session.is_subtype(intersection(*way.targets), part) for part in parts)


def _together(ways: list[_Way]) -> _Way:
    return _Way((), tuple(target for way in ways for target in way.targets))


def _split(path: Type, count: int) -> tuple[tuple[Type, ...], Type | None]:
    """So many sources of a path, and what is left. Nothing is left if it has fewer."""
    sources: list[Type] = []
    left = path
    while len(sources) < count:
        if not isinstance(left, Arrow):
            return (), None
        sources.append(left.source)
        left = left.target
    return tuple(sources), left


def _parts(type: Type) -> list[Type]:
    """The parts whose intersection the type is, also where an arrow leads to an intersection, each once."""
    found: dict[Type, None] = {}
    waiting: list[tuple[tuple[Type, ...], Type]] = [((), type)]
    while waiting:
        sources, left = waiting.pop()
        if isinstance(left, Intersection):
            waiting += [(sources, left.right), (sources, left.left)]
        elif isinstance(left, Arrow):
            waiting.append(((*sources, left.source), left.target))
        elif left != omega:
            found[arrow(*sources, left)] = None
    return list(found)


def _text(parts: tuple[Type, ...]) -> str:
    """The parts as a type, without what is too much to be read."""
    if not parts:
        return "omega alone"
    distinct = list(dict.fromkeys(parts))
    shown = str(intersection(*distinct[:_MOST_PARTS]))
    others = len(distinct) - _MOST_PARTS
    return f"{shown} and {others} more" if others > 0 else shown


def _branches(reason: Reason, shown: set[tuple[Term, Type]]) -> Iterator[str]:
    """The lines under what a term lacks."""
    component, count = reason.term.component, len(reason.term.arguments)
    blocks = [_arrow_lines(component, it, shown) for it in reason.arrows]
    if not blocks and count:
        blocks.append([f"No arrow of {component} with {count} argument{'s' if count > 1 else ''} leads there."])
    if reason.arrow_count > len(blocks) and reason.arrows:
        blocks.append([f"{reason.arrow_count - len(blocks)} further arrows lead there."])
    yield from _tree(blocks)


def _arrow_lines(component: str, it: ArrowReason, shown: set[tuple[Term, Type]]) -> list[str]:
    """An arrow, and under it each argument that it lacks. What was shown before isn't shown again."""
    blocks: list[list[str]] = []
    for place, reason in it.lacking:
        key = reason.term, reason.goal
        is_new = key not in shown
        shown.add(key)
        head = f"Argument {place + 1}, {reason.term}, {reason._difference()}"
        blocks.append([head, *(_branches(reason, shown) if is_new else [])])
    return [f"{component} makes {it.target} of {', '.join(map(str, it.sources))}.", *_tree(blocks)]


def _tree(blocks: list[list[str]]) -> Iterator[str]:
    """Blocks of lines under one another, as branches."""
    for number, (first, *others) in enumerate(blocks, 1):
        is_last = number == len(blocks)
        yield f"{'└─' if is_last else '├─'} {first}"
        yield from (f"{'  ' if is_last else '│ '} {line}" for line in others)
