"""What the lines of a repository declare, line by line and as far as they can be read: it is also used where a line is at fault."""

from __future__ import annotations

from collections.abc import Iterable

from clsynth.tokens import is_skipped, text_of, tokens_of

__all__ = ["Declared"]


class Declared:
    """The names that are declared, each with the number of the line that does so first, counted from 1."""

    def __init__(self, lines: Iterable[bytes]) -> None:
        self.components: dict[str, int] = {}
        self.kinds: dict[str, int] = {}
        self.filters: dict[str, int] = {}
        self.variances: dict[str, tuple[int, str]] = {}
        """With the word of the variance."""
        self.below: list[tuple[str, str, int]] = []
        """The pairs of `sub` lines, with their lines."""
        for number, line in enumerate(lines, 1):
            if not is_skipped(line):
                self._take(number, [token.text for token in tokens_of(text_of(line))[:3]])

    def _take(self, number: int, words: list[str]) -> None:
        match words:
            case ["comp", name, *_]:
                self.components.setdefault(name, number)
            case ["kind", name, *_]:
                self.kinds.setdefault(name, number)
            case ["filter", name, *_]:
                self.filters.setdefault(name, number)
            case ["variance", name, word]:
                self.variances.setdefault(name, (number, word))
            case ["sub", lower, upper]:
                self.below.append((lower, upper, number))

    def cycle(self, name: str) -> list[tuple[str, str, int]]:
        """A shortest way by pairs from the constructor back to itself. It is empty if there is none."""
        ways: dict[str, list[tuple[str, str, int]]] = {name: []}
        waiting = [name]
        for lower in waiting:
            for pair in self.below:
                if pair[0] != lower or pair[0] == pair[1]:
                    continue
                if pair[1] == name:
                    return [*ways[lower], pair]
                if pair[1] not in ways:
                    ways[pair[1]] = [*ways[lower], pair]
                    waiting.append(pair[1])
        return []
