"""Types as far as lint looks at them: paths with their heads. This reads a type much faster than `Type.parse` does.

A path is a type without an intersection on its way to its end: sources, and then a constructor, a product or a variable, which is its head.
A type is the intersection of its paths. `omega` has none, and neither has an arrow that leads to `omega`.
"""

from __future__ import annotations

import re
from functools import lru_cache
from string import ascii_letters
from typing import NamedTuple

from clsynth.limits import MAX_NAME_BYTES, MAX_PARENTHESES

__all__ = ["PRODUCT", "Path", "Paths", "TypeReader", "Unreadable", "words_of"]

PRODUCT = "*"
"""The head of a product."""

_WORD = re.compile(r"[A-Za-z_][A-Za-z0-9_]*|[0-9]+|->|<=|[^ \t\r]", re.ASCII)
_STARTS = frozenset(ascii_letters + "_")


class Path(NamedTuple):
    """A path. The head of a variable is its name with the `$` before it. `arguments` are the type that a constructor is over, or the two
    parts of a product."""

    sources: tuple[tuple[Path, ...], ...]
    head: str
    arguments: tuple[tuple[Path, ...], ...]


Paths = tuple[Path, ...]
"""A type."""


class Unreadable(Exception):
    """A line that fits no form, or has too many parentheses open at once."""


def words_of(line: str) -> list[str]:
    """The tokens of a line, and an empty one behind them."""
    return [*_WORD.findall(line), ""]


class TypeReader:
    """Reads types from the tokens of a line, from the token number `next` on, which it moves behind what was read."""

    def __init__(self, words: list[str], next: int) -> None:
        self._words = words
        self._open = 0
        self.next = next

    def name(self) -> str:
        """A name that may be declared."""
        word = self._words[self.next]
        if word[:1] not in _STARTS or len(word) > MAX_NAME_BYTES or word == "omega":
            raise Unreadable
        self.next += 1
        return word

    def number(self) -> None:
        """Passes a number."""
        word = self._words[self.next]
        if not (word.isascii() and word.isdigit()):
            raise Unreadable
        self.next += 1

    def takes(self, word: str) -> bool:
        """Whether this token comes next. If so, it is passed."""
        if self._words[self.next] == word:
            self.next += 1
            return True
        return False

    def wants(self, word: str) -> None:
        """Passes this token."""
        if not self.takes(word):
            raise Unreadable

    def type(self) -> Paths:
        """A type, as far as it goes."""
        words = self._words
        parts = [self._meet()]
        while words[self.next] == "->":
            self.next += 1
            parts.append(self._meet())
        if len(parts) == 1:
            return parts[0]
        sources = tuple(parts[:-1])
        return tuple([Path(sources + path.sources, path.head, path.arguments) for path in parts[-1]])

    def _meet(self) -> Paths:
        words = self._words
        made: Paths = ()
        product = self._atom()
        while True:
            sign = words[self.next]
            if sign == "&":
                self.next += 1
                made += product
                product = self._atom()
            elif sign == "*":
                self.next += 1
                product = (Path((), PRODUCT, (product, self._atom())),)
            else:
                return made + product if made else product

    def _atom(self) -> Paths:
        words, place = self._words, self.next
        word = words[place]
        if word == "(":
            return self._closed()
        if word == "omega":
            self.next += 1
            return ()
        if word == "$":
            self.next += 1
            return _bare(f"${self.name()}")
        name = self.name()
        if words[place + 1] != "(":
            return _bare(name)
        if words[place + 2] and words[place + 3] == ")" and self._open < MAX_PARENTHESES:
            # A constructor over a name is most of what there is, so it isn't made anew each time.
            self.next += 1
            inner = "omega" if self.takes("omega") else self.name()
            self.wants(")")
            return _over(name, inner)
        argument = self._closed()
        return (Path((), name, (argument,)),) if argument else _bare(name)

    def _closed(self) -> Paths:
        """A type in parentheses, the first of which comes next."""
        self.next += 1
        self._open += 1
        if self._open > MAX_PARENTHESES:
            raise Unreadable
        made = self.type()
        self.wants(")")
        self._open -= 1
        return made


@lru_cache(maxsize=20_000)
def _over(name: str, inner: str) -> Paths:
    """The constructor over a type that is one name."""
    return _bare(name) if inner == "omega" else (Path((), name, (_bare(inner),)),)


@lru_cache(maxsize=20_000)
def _bare(head: str) -> Paths:
    """The type that has only this head."""
    return (Path((), head, ()),)
