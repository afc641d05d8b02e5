"""Cutting the text of a repository into what its lines say."""

from __future__ import annotations

import re
from collections.abc import Iterator
from contextlib import contextmanager
from dataclasses import dataclass

from clsynth.errors import ParseFault, RepositoryFault
from clsynth.types import Type

__all__ = ["Directive", "read_directives"]

_BLANK = r"[ \t\r]*"
_NAME = r"([A-Za-z_][A-Za-z0-9_]*)"
_STATE = r"[A-Za-z_][A-Za-z0-9_]*"
_FORMS = {
    "sub": ("`sub NAME NAME`", rf"{_NAME}[ \t\r]+{_NAME}{_BLANK}"),
    "variance": ("`variance NAME contra` or `variance NAME inv`", rf"{_NAME}[ \t\r]+(contra|inv){_BLANK}"),
    "kind": ("`kind NAME = TYPE | TYPE ..`", rf"{_NAME}{_BLANK}=(.*)"),
    "comp": ("`comp NAME : TYPE`", rf"{_NAME}{_BLANK}:(.*)"),
    "text": ("`text NAME = ..`", rf"{_NAME}{_BLANK}=[ \t]?(.*)"),
    "cost": ("`cost NAME N`", rf"{_NAME}[ \t\r]+([0-9]+){_BLANK}"),
    "filter": ("`filter F accepts Q Q ..`", rf"{_NAME}[ \t\r]+accepts((?:[ \t\r]+{_STATE})+){_BLANK}"),
    "leaf": ("`leaf F NAME -> S`", rf"{_NAME}[ \t\r]+{_NAME}{_BLANK}->{_BLANK}{_NAME}{_BLANK}"),
    "app": ("`app F P P -> S`", rf"{_NAME}[ \t\r]+{_NAME}[ \t\r]+{_NAME}{_BLANK}->{_BLANK}{_NAME}{_BLANK}"),
    "other": ("`other F Q`", rf"{_NAME}[ \t\r]+{_NAME}{_BLANK}"),
    "end": ("`end`", ""),
}
_WORD = re.compile(rf"{_BLANK}(\w*){_BLANK}", re.ASCII)


@dataclass(frozen=True)
class Directive:
    """What a line says: its first word, and what stands behind it, with the places of these parts in the line."""

    word: str
    parts: tuple[str, ...]
    places: tuple[int, ...]
    line: str
    number: int

    def type(self) -> Type:
        """The type that the last part is."""
        return self._type(self.parts[-1], self.places[-1])

    def types(self) -> list[Type]:
        """The types in the last part, between single bars."""
        types, place = [], self.places[-1]
        for text in self.parts[-1].split("|"):
            types.append(self._type(text, place))
            place += len(text) + 1
        return types

    @contextmanager
    def noted(self) -> Iterator[None]:
        """Notes the line at faults of its declaration."""
        try:
            yield
        except RepositoryFault as fault:
            fault.add_note(f"line {self.number}: {self.line[:200]}")
            raise

    def _type(self, text: str, place: int) -> Type:
        try:
            return Type.parse(text)
        except ParseFault as fault:
            raise ParseFault(self.line, place + fault.place, fault.wanted, self.number) from None


def read_directives(text: str) -> Iterator[Directive]:
    """The directives up to the line `end`, behind which nothing may stand but lines that are skipped. It may be missing."""
    has_ended = False
    for number, line in enumerate(text.split("\n"), 1):
        line = line.removesuffix("\r")
        if not line.strip(" \t\r") or line.lstrip(" \t\r").startswith("#"):
            continue
        if has_ended:
            raise ParseFault(line, 0, "nothing behind `end`", number)
        directive = _directive(line, number)
        has_ended = directive.word == "end"
        if not has_ended:
            yield directive


def _directive(line: str, number: int) -> Directive:
    first = _WORD.match(line)
    form = _FORMS.get(first[1]) if first else None
    if not first or not form:
        raise ParseFault(line, 0, "one of the words " + ", ".join(f"`{word}`" for word in _FORMS), number)
    wanted, pattern = form
    rest = re.compile(pattern, re.ASCII | re.DOTALL).fullmatch(line, first.end())
    if not rest:
        raise ParseFault(line, first.end(), wanted, number)
    places = tuple(rest.start(group) for group in range(1, len(rest.groups()) + 1))
    return Directive(first[1], rest.groups(), places, line, number)
