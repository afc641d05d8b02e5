"""What a session added to its repository and dropped from it.

A new program is told this behind the repository, and then has the components that the one before it had, in the same order.
"""

from __future__ import annotations

from collections.abc import Iterator

from clsynth.queries import Query

__all__ = ["Changes"]


class Changes:
    """The components that are no longer those of the repository."""

    def __init__(self) -> None:
        self._dropped: dict[str, str] = {}
        """The lines that drop components of the repository."""
        self._added: dict[str, str] = {}
        """The lines that add components, in the order in which they came."""

    def take(self, query: Query[object]) -> None:
        """Takes what a query changed that was answered."""
        if query.added is not None:
            self._added[query.added] = query.lines[0]
        if query.dropped is not None and self._added.pop(query.dropped, None) is None:
            self._dropped[query.dropped] = query.lines[0]

    def lines(self) -> Iterator[tuple[str, str]]:
        """Lines that make the same changes, each with its reply. Those that drop come first: so there are never too many components."""
        for line in self._dropped.values():
            yield line, "dropped"
        for line in self._added.values():
            yield line, "added"
