"""Kinds by rule: types for values of Python, and arrows between them.

    cells = pairs(numbers(0, 29, "X"), numbers(0, 29, "Y"), lambda x, y: (x, y) not in walls)
    moves = steps(cells, lambda cell: (cell[0] + 1, cell[1]), constructor("At"))

Types for values are a dictionary from the values to their types. `Repository.kind` takes such a dictionary, and `Repository.component`
such a list of arrows.
"""

from __future__ import annotations

from collections.abc import Callable, Hashable, Mapping
from typing import TypeVar

from clsynth.errors import DuplicateName
from clsynth.types import Arrow, Constructor, Type

__all__ = ["numbers", "pairs", "steps"]

Left = TypeVar("Left", bound=Hashable)
Right = TypeVar("Right", bound=Hashable)
Value = TypeVar("Value", bound=Hashable)


def numbers(first: int, last: int, prefix: str = "N") -> dict[int, Constructor]:
    """The whole numbers from the first to the last, with the types `N0`, `N1` and so on. -1 is `N_1`."""
    return {number: Constructor(f"{prefix}{number}" if number >= 0 else f"{prefix}_{-number}") for number in range(first, last + 1)}


def pairs(
    left: Mapping[Left, Constructor], right: Mapping[Right, Constructor], holds: Callable[[Left, Right], bool] = lambda left, right: True,
) -> dict[tuple[Left, Right], Constructor]:
    """The pairs of values for which the predicate holds. The type of a pair has a name of its own, such as `X0_Y1`.

    A name is taken and not a product, since a product falls into its parts: whether a term has `At(X0 * Y1)` is looked for in each way to
    `At(X0 * omega)` together with each way to `At(omega * Y1)`.
    """
    made = {(one, two): Constructor(f"{left[one].name}_{right[two].name}") for one in left for two in right if holds(one, two)}
    if len(set(made.values())) < len(made):
        raise DuplicateName("two pairs get one name: give their parts names in which no `_` stands")
    return made


def steps(types: Mapping[Value, Type], successor: Callable[[Value], Value], over: Constructor | None = None) -> list[Arrow]:
    """An arrow from each value to its successor, for those whose successor is one of the values too. They are under the constructor, if
    one is given: `At(X0_Y0) -> At(X1_Y0)`."""
    places = {value: over(type) if over else type for value, type in types.items()}
    following = ((place, successor(value)) for value, place in places.items())
    return [Arrow(place, places[next]) for place, next in following if next in places]
