"""`cls why` and `cls missing`, and the session of a command."""

from __future__ import annotations

from argparse import Namespace

from clsynth.command.options import options_of
from clsynth.command.sources import repository_in
from clsynth.missing import missing
from clsynth.session import Session
from clsynth.why import why

__all__ = ["session_of", "show_missing", "show_why"]


def session_of(given: Namespace, repository: str) -> Session:
    """A session with the options that are given. `cls check` warns, so it doesn't."""
    return Session(repository, words=options_of(given).words(), lint=False)


def show_why(given: Namespace) -> int:
    """Prints whether the term has the type, and why."""
    with session_of(given, repository_in(given)) as session:
        print(why(session, given.term, given.type).shown())
    return 0


def show_missing(given: Namespace) -> int:
    """Prints what is missing for the type."""
    repository = repository_in(given)
    with session_of(given, repository) as session:
        print(missing(session, repository, given.type).shown())
    return 0
