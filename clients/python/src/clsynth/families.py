"""Components with many types.

A component has each type of a kind, if its own type is a variable of that kind. So it can have more types than a type has nodes for. Where
one kind has too many choices, several types stand in one choice as their intersection. Where a line of a kind is too long, there are
several kinds, and the component has the intersection of their variables.
"""

from __future__ import annotations

from collections.abc import Iterator, Sequence
from math import prod

from clsynth.errors import KindTooLarge
from clsynth.limits import MAX_CHOICES, MAX_INSTANCE_NODES, MAX_LINE_BYTES, MAX_NAME_BYTES, MAX_NODES, MAX_SPREADS
from clsynth.types import Type, intersection

__all__ = ["choices_of_kinds"]

# What a line has beside the types, with its name and two parentheses for each choice.
_ROOM = MAX_LINE_BYTES - len("kind  = ") - MAX_NAME_BYTES


def choices_of_kinds(what: str, types: Sequence[Type]) -> list[list[Type]]:
    """The choices of one or more kinds, of which each type is one, or a part of one. Raises `KindTooLarge` if there are too many."""
    lines = list(_in_lines(types))
    if len(lines) == 1:
        return [_in_groups(types, -(-len(types) // MAX_CHOICES))]
    nodes = min(MAX_NODES, MAX_INSTANCE_NODES // len(lines) - 1)
    most = max(1, (nodes + 1) // (1 + max(type.nodes for type in types)))
    kinds = [_in_groups(line, most) for line in lines]
    # The nodes are more than the spread where arrows lead from names to names, of which a library has a bound.
    allowed = min(MAX_CHOICES, MAX_SPREADS // (len(lines) * nodes))
    if prod(map(len, kinds)) > allowed:
        raise KindTooLarge(what, prod(map(len, kinds)), allowed)
    return kinds


def _in_lines(types: Sequence[Type]) -> Iterator[list[Type]]:
    """The types in runs that fit into a line each."""
    run: list[Type] = []
    length = 0
    for type in types:
        own = len(f"({type}) & ")
        if run and length + own > _ROOM:
            yield run
            run, length = [], 0
        run.append(type)
        length += own
    if run:
        yield run


def _in_groups(types: Sequence[Type], count: int) -> list[Type]:
    """Intersections of so many of the types each, but for the last one."""
    return [intersection(*types[place : place + count]) for place in range(0, len(types), count)]
