"""`cls list`: the terms of a type, from as many pages as are needed."""

from __future__ import annotations

import sys
from argparse import Namespace
from typing import Any

from clsynth.command.asking import session_of
from clsynth.command.progress import Progress
from clsynth.command.sources import repository_in
from clsynth.paging import Paging, filtered_paging, term_paging, text_paging
from clsynth.replies import TermText
from clsynth.terms import Term

__all__ = ["list_terms"]

_PAGE = 500
"""The terms of a page."""


def list_terms(given: Namespace) -> int:
    """Prints the terms, or their texts, each on a line of its own."""
    progress = Progress(given.count)
    paging = _paging(given)
    left = given.count
    with session_of(given, repository_in(given)) as session:
        for page in session.pages(paging):
            progress.clear()
            _print(page.entries)
            progress.add(len(page.entries))
            left -= len(page.entries)
            if not left:
                break
            paging.size = min(paging.size, left)
    progress.clear()
    return 0


def _paging(given: Namespace) -> Paging[Any]:
    words = given.type, min(given.count, _PAGE), given.max, given.after
    if given.filter:
        return filtered_paging(given.filter, *words)
    if given.text:
        return text_paging(*words)
    return term_paging(*words)


def _print(entries: list[Term | TermText]) -> None:
    texts = [entry.text if isinstance(entry, TermText) else str(entry) for entry in entries]
    sys.stdout.write("".join(f"{text}\n" for text in texts if text is not None))
    sys.stdout.flush()
    for entry in entries:
        if isinstance(entry, TermText) and entry.text is None:
            print(f"cls: the text of {entry.term} has more than 65,536 bytes", file=sys.stderr)
