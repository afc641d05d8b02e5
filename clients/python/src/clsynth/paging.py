"""Listings that go over several pages: which page is asked for next."""

from __future__ import annotations

from collections.abc import Callable
from typing import Generic, TypeVar

from clsynth import queries
from clsynth.filters import Filter
from clsynth.queries import Query
from clsynth.replies import Page, TermText
from clsynth.terms import Term, TermLike
from clsynth.types import TypeLike

__all__ = ["Paging", "filtered_paging", "term_paging", "text_paging"]

Entry = TypeVar("Entry")
_FEWER = 10
"""A page for which too many terms count is asked for again with so many times fewer terms."""


class Paging(Generic[Entry]):
    """The pages of a type, from the first one or from a term on. Each page is asked for by `query` and then given to `take`."""

    def __init__(
        self, page_of: Callable[[int, TermLike | None], Query[Page[Entry]]], term_of: Callable[[Entry], Term], size: int,
        after: TermLike | None,
    ) -> None:
        self._page_of = page_of
        self._term_of = term_of
        self.size = size
        """How many terms the next page has at most."""
        self._after = after
        self.has_more = True
        """Whether a further page follows."""

    @property
    def query(self) -> Query[Page[Entry]]:
        """The query for the next page."""
        return self._page_of(self.size, self._after)

    def take(self, page: Page[Entry]) -> None:
        """Goes on behind this page."""
        self.has_more = page.more
        if page.entries:
            self._after = self._term_of(page.entries[-1])

    def shrinks(self) -> bool:
        """Makes the next pages smaller, since fewer terms count for them. It can't be done if they have one term each."""
        can_shrink = self.size > 1
        self.size = max(1, self.size // _FEWER)
        return can_shrink


def term_paging(goal: TypeLike, size: int, max_size: int, after: TermLike | None) -> Paging[Term]:
    """Pages of so many terms."""
    return Paging(lambda take, after: queries.page(goal, take, max_size=max_size, after=after), lambda term: term, size, after)


def filtered_paging(filter: Filter | str, goal: TypeLike, size: int, max_size: int, after: TermLike | None) -> Paging[Term]:
    """Pages of so many terms that the filter accepts."""
    return Paging(
        lambda take, after: queries.filtered_page(filter, goal, take, max_size=max_size, after=after), lambda term: term, size, after,
    )


def text_paging(goal: TypeLike, size: int, max_size: int, after: TermLike | None) -> Paging[TermText]:
    """Pages of so many terms with their texts."""
    return Paging(lambda take, after: queries.text_page(goal, take, max_size=max_size, after=after), lambda it: it.term, size, after)
