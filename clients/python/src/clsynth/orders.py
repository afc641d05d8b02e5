"""Which constructors are below which by the `sub` lines of a repository."""

from __future__ import annotations

from collections.abc import Iterable

__all__ = ["Order"]


class Order:
    """The order that pairs of constructors make, the lower one of each first."""

    def __init__(self, pairs: Iterable[tuple[str, str]]) -> None:
        self._up: dict[str, list[str]] = {}
        self._down: dict[str, list[str]] = {}
        self._above: dict[str, set[str]] = {}
        for lower, upper in pairs:
            self._up.setdefault(lower, []).append(upper)
            self._down.setdefault(upper, []).append(lower)

    def above(self, name: str) -> set[str]:
        """The constructor, and all above it."""
        if name not in self._above:
            self._above[name] = self.upward([name])
        return self._above[name]

    def upward(self, names: Iterable[str]) -> set[str]:
        """These constructors, and all above one of them."""
        return _closure(names, self._up)

    def downward(self, names: Iterable[str]) -> set[str]:
        """These constructors, and all below one of them."""
        return _closure(names, self._down)


def _closure(names: Iterable[str], ways: dict[str, list[str]]) -> set[str]:
    found = set(names)
    waiting = list(found)
    while waiting:
        for end in ways.get(waiting.pop(), ()):
            if end not in found:
                found.add(end)
                waiting.append(end)
    return found
