"""Names that a typing slip makes of one another."""

from __future__ import annotations

import re
from collections.abc import Collection, Iterable, Iterator
from difflib import get_close_matches

__all__ = ["SlipIndex", "closest"]

_DIGITS = re.compile(r"[0-9]+")
_LETTERS = re.compile(r"[^0-9]+")
_CLOSE = 0.6
"""How much of two words has to be the same, by the measure of difflib."""


def closest(word: str, words: Collection[str]) -> str | None:
    """The word that is most like the given one, if there is one that is much like it. Small and capital letters count as the same."""
    by_small = {it.lower(): it for it in reversed(list(words)) if it != word}
    found = get_close_matches(word.lower(), by_small, 1, _CLOSE)
    return by_small[found[0]] if found else None


class SlipIndex:
    """Finds the names at one slip from another: a letter more, a letter less, another one, or two that changed places.

    The digits of both are the same: `A1` and `A2` are no slips of one another. Names of one or two letters have no slips.
    """

    SHORTEST = 3

    def __init__(self, names: Iterable[str]) -> None:
        self._by_rest: dict[tuple[str, str], list[str]] = {}
        for name in names:
            for key in self._keys(name):
                self._by_rest.setdefault(key, []).append(name)

    def near(self, name: str) -> list[str]:
        """The names at one slip from this one."""
        found = dict.fromkeys(other for key in self._keys(name) for other in self._by_rest.get(key, ()))
        return [other for other in found if _is_slip(name, other)]

    def _keys(self, name: str) -> Iterator[tuple[str, str]]:
        """The letters, and what is left of them without one, with the digits. Two names at one slip share one of these."""
        letters = _DIGITS.sub("", name)
        if len(letters) < self.SHORTEST:
            return
        digits = "" if letters == name else _LETTERS.sub("", name)
        yield letters, digits
        for place in range(len(letters)):
            yield letters[:place] + letters[place + 1 :], digits


def _is_slip(one: str, two: str) -> bool:
    if one == two:
        return False
    start = next((place for place, (a, b) in enumerate(zip(one, two)) if a != b), min(len(one), len(two)))
    left, right = one[start:], two[start:]
    is_swap = left[:2] == right[1::-1] and left[2:] == right[2:]
    return left[1:] == right[1:] or left[1:] == right or left == right[1:] or is_swap
