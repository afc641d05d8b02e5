"""Terms as values.

    term = Term.parse("rev(sort(input))")
    assert term == Term("rev", (Term("sort", (Term("input"),)),))
    assert str(term) == "rev(sort(input))" and term.length == 3

A term may be nested as deep as memory allows: nothing here calls itself.
"""

from __future__ import annotations

import re
from collections.abc import Iterable, Iterator, Mapping
from dataclasses import dataclass, field
from typing import Any

from clsynth.errors import ParseFault

__all__ = ["Term", "TermLike", "as_term"]

_BLANKS = " \t\r"
_TOKEN = re.compile(rf"[{_BLANKS}]*(?:([A-Za-z_][A-Za-z0-9_]*)|([(),])|(.))", re.DOTALL)


@dataclass(frozen=True, slots=True, eq=False, repr=False)
class Term:
    """A component, applied to terms in turn. Two terms are equal if they are written in the same way."""

    component: str
    arguments: tuple[Term, ...] = ()
    length: int = field(init=False)
    """How many components occur in it, each as often as it stands there."""
    depth: int = field(init=False)
    """How many components are nested at most. A component alone has depth 1."""
    _hash: int = field(init=False)

    def __post_init__(self) -> None:
        length, depth = 1, 0
        try:
            for argument in self.arguments:
                length += argument.length
                depth = max(depth, argument.depth)
        except AttributeError:
            raise TypeError(f"{argument!r} is no term") from None
        object.__setattr__(self, "arguments", tuple(self.arguments))
        object.__setattr__(self, "length", length)
        object.__setattr__(self, "depth", depth + 1)
        object.__setattr__(self, "_hash", hash((self.component, *[argument._hash for argument in self.arguments])))

    @staticmethod
    def parse(text: str) -> Term:
        """The term that the text says, as docs/LANGUAGE.md has them. Raises `ParseFault`."""
        return _parse(text)

    @staticmethod
    def of_spine(spine: Iterable[tuple[str, int]]) -> Term:
        """The term whose `spine` is this."""
        # Arguments stand behind their component, so from the right each component finds its arguments made.
        made: list[Term] = []
        for component, count in reversed(list(spine)):
            arguments = tuple(made[: -count - 1 : -1]) if count else ()
            del made[len(made) - count :]
            made.append(Term(component, arguments))
        (term,) = made
        return term

    def spine(self) -> Iterator[tuple[str, int]]:
        """Each component in the order of the text, with the number of its arguments. This alone says which term it is."""
        return ((term.component, len(term.arguments)) for term in self.subterms())

    def subterms(self) -> Iterator[Term]:
        """The term itself, its arguments, theirs and so on, in the order in which they begin in the text, each as often as it occurs."""
        waiting = [self]
        while waiting:
            term = waiting.pop()
            yield term
            waiting.extend(reversed(term.arguments))

    def size(self, costs: Mapping[str, int] | None = None) -> int:
        """The sum of the costs of its components, each as often as it occurs. One that isn't in the mapping costs 1."""
        if not costs:
            return self.length
        return sum(costs.get(term.component, 1) for term in self.subterms())

    def __eq__(self, other: object) -> bool:
        if self is other:
            return True
        if not isinstance(other, Term):
            return NotImplemented
        if self._hash != other._hash or self.length != other.length:
            return False
        return all(one == two for one, two in zip(self.spine(), other.spine()))

    def __hash__(self) -> int:
        return self._hash

    def __str__(self) -> str:
        pieces: list[str] = []
        waiting: list[Term | str] = [self]
        while waiting:
            part = waiting.pop()
            if isinstance(part, str):
                pieces.append(part)
                continue
            pieces.append(part.component)
            if part.arguments:
                pieces.append("(")
                waiting.append(")")
                for argument in part.arguments[:0:-1]:
                    waiting += (argument, ", ")
                waiting.append(part.arguments[0])
        return "".join(pieces)

    def __repr__(self) -> str:
        return f"Term.parse({str(self)!r})"

    def __reduce__(self) -> tuple[Any, ...]:
        return Term.of_spine, (list(self.spine()),)


TermLike = Term | str
"""A term, or its text."""


def as_term(term: TermLike) -> Term:
    """The term, which is read if it is a text."""
    if isinstance(term, str):
        return Term.parse(term)
    if not isinstance(term, Term):
        raise TypeError(f"{term!r} is no term")
    return term


def _parse(text: str) -> Term:
    # What stands around the innermost open component, and its arguments so far.
    around: list[tuple[str, list[Term]]] = []
    arguments: list[Term] = []
    component, term = "", None
    for token in _TOKEN.finditer(text.rstrip(_BLANKS)):
        sign = token[2]
        if token[1] and not component and term is None:
            component = token[1]
        elif sign == "(" and component:
            around.append((component, arguments))
            component, arguments = "", []
        elif (sign == "," or sign == ")") and around and (component or term is not None):
            arguments.append(Term(component) if term is None else term)
            component, term = "", None
            if sign == ")":
                head, outer = around.pop()
                term, arguments = Term(head, tuple(arguments)), outer
        else:
            raise ParseFault(text, token.start(token.lastindex or 0), _wanted(component, term, around))
    if around or not (component or term is not None):
        raise ParseFault(text, len(text), _wanted(component, term, around))
    return Term(component) if term is None else term


def _wanted(component: str, term: Term | None, around: list[tuple[str, list[Term]]]) -> str:
    """What may come next."""
    if not component and term is None:
        return "a component"
    return ("`(`, " if component else "") + ("`,` or `)`" if around else "the end of the term")
