"""The numbers of constructors.

The program numbers constructors in the order in which they first come, and orders the parts of types by these numbers. So the text of
a grammar or a certificate may depend on which queries came before. A new program is told the names in their order, and then answers as
the one before it would have.
"""

from __future__ import annotations

import re
from collections.abc import Container, Iterable, Iterator
from itertools import islice

from clsynth.errors import (
    BadCertificate, BadName, ClosureTooLarge, ComponentRefused, FilteredTooLarge, NoQed, ParseFault, QueryError, TooManyTerms, TypeTooDeep,
    TypeTooLarge, WideGoal,
)
from clsynth.limits import MAX_NAME_BYTES, MAX_NODES, MAX_PARENTHESES
from clsynth.queries import Query
from clsynth.terms import Term
from clsynth.tokens import bytes_of, can_be_read
from clsynth.types import Type, open_parentheses

__all__ = ["Numbering", "is_read"]

# A variable, or a name that is none.
_NAME = re.compile(r"\$[ \t\r]*[A-Za-z_][A-Za-z0-9_]*|([A-Za-z_][A-Za-z0-9_]*)", re.ASCII)
_NAMES_OF_A_LINE = 100
# The errors of a query that was read, with its certificate if it has one: all its names have numbers.
_LATE = (ClosureTooLarge, ComponentRefused, FilteredTooLarge, TooManyTerms, TypeTooLarge, WideGoal)
# The errors of a query of which the first line was read.
_OF_A_CERTIFICATE = (BadCertificate, NoQed)


class Numbering:
    """The names that queries brought, in the order in which they first came."""

    def __init__(self, names: Iterable[str] = ()) -> None:
        self._names = dict.fromkeys(names)

    def __iter__(self) -> Iterator[str]:
        return iter(self._names)

    def add(self, query: Query[object], error: QueryError | None = None) -> None:
        """Adds what a query brought that was answered, or got this error."""
        if error is None or isinstance(error, _LATE):
            self._take(*query.types, *query.certificate_types)
        elif isinstance(error, _OF_A_CERTIFICATE):
            self._take(*query.types)

    def forget(self) -> None:
        """Begins anew."""
        self._names.clear()

    def lines(self) -> Iterator[str]:
        """Queries that bring the names in their order. Each is answered by one line."""
        names = iter(self._names)
        while some := list(islice(names, _NAMES_OF_A_LINE)):
            yield f"sub {' * '.join(some)} <= omega"

    def _take(self, *types: str) -> None:
        for type in types:
            for name in _NAME.findall(type):
                if name and name != "omega" and len(name) <= MAX_NAME_BYTES:
                    self._names.setdefault(name)


def is_read(query: Query[object], components: Container[str], filters: Container[str] = ()) -> bool:
    """Whether the program reads the first line of the query, so that its names get numbers. It is told without the program, by the names
    of the components and of the filters."""
    line = query.lines[0]
    if not can_be_read(bytes_of(line)) or open_parentheses(line) > MAX_PARENTHESES:
        return False
    try:
        types = [Type.parse(type) for type in query.types]
        terms = [Term.parse(term) for term in query.terms]
    except (BadName, ParseFault, TypeTooDeep):
        return False
    if any(type.nodes > MAX_NODES or any(type.variables()) for type in types):
        return False
    return all(name in filters for name in query.filters) and all(component in components for term in terms for component, _ in term.spine())
