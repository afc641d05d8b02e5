"""Many queries on many processors or machines.

    with ProcessPoolExecutor() as executor:
        for answer in map_queries(executor, repository, [queries.inhabited(goal) for goal in goals]):
            print(answer)

Any executor of `concurrent.futures` does: threads, processes, or those of a cluster, as `distributed.Client(address).get_executor()`. Where
it runs, this package and the program have to be there.
"""

from __future__ import annotations

import os
from collections.abc import Callable, Collection, Iterable, Iterator, Sequence
from concurrent.futures import BrokenExecutor, Executor, Future
from functools import partial
from typing import TypeVar

from clsynth.errors import ParseFault, ProcessFault, QueryError, RepositoryFault
from clsynth.lint import issue, warnings_of
from clsynth.numbering import Numbering, is_read
from clsynth.queries import Query, check_keeps
from clsynth.repository import Repository
from clsynth.session import Session

__all__ = ["map_queries"]

Answer = TypeVar("Answer")
_Answers = list[Answer | QueryError]
_Open = Callable[[], Session]


def map_queries(
    executor: Executor, repository: Repository | str, queries: Iterable[Query[Answer]], *, batch: int = 16,
    program: str | os.PathLike[str] | None = None, workers: int | None = None, max_goals: int | None = None, max_rules: int | None = None,
    pool: int | str | None = None, words: Sequence[str] = (), timeout: float | None = None, lint: bool = True,
) -> Iterator[Answer | QueryError]:
    """The answers to the queries, in their order and each once. For a query with an error it is the error, as a value.

    They are those that one session gives which is asked the queries in their order. None of them may add or drop a component. Where types
    are written with names that the repository hasn't, their order may differ only if a query had a bad certificate with such names.

    A worker answers `batch` queries at a time, by a program of its own, which it finds as `find_program` says there. The work of a worker
    that is lost is done again: a cluster does so by itself; where the executor is broken, as a pool of processes that lost one of them,
    what is left is done here; and where only the program was killed, the worker starts it once more.

    The other arguments are those of `Session`. What `lint` warns of is issued here, once. What stops a session, as `RepositoryRefused` or
    `QueryTimeout`, is raised.
    """
    if batch < 1:
        raise ValueError(f"a batch has at least one query, and not {batch}")
    asked = list(queries)
    for query in asked:
        check_keeps(query)
    # This is sent to the workers.
    opened = partial(
        Session, str(repository), program=program, workers=workers, max_goals=max_goals, max_rules=max_rules, pool=pool, words=tuple(words),
        timeout=timeout, names=_names(repository, asked), lint=False,
    )
    batches = [tuple(asked[place : place + batch]) for place in range(0, len(asked), batch)]
    futures = [_submitted(executor, opened, some) for some in batches]
    if lint:
        issue(warnings_of(str(repository)), stacklevel=2)
    return _in_order(opened, batches, futures)


def _names(repository: Repository | str, asked: Iterable[Query[object]]) -> tuple[str, ...]:
    """The names that the queries bring, in the order in which one session would come upon them."""
    names = Numbering()
    components, filters = _declared(repository)
    for query in asked:
        if is_read(query, components, filters):
            names.add(query)
    return tuple(names)


def _declared(repository: Repository | str) -> tuple[Collection[str], Collection[str]]:
    """The names of the components and of the filters. Of a text that the program refuses they are of no use."""
    try:
        parsed = Repository.parse(repository) if isinstance(repository, str) else repository
    except (ParseFault, RepositoryFault):
        return (), ()
    return parsed.components, parsed.filters


def _submitted(executor: Executor, opened: _Open, batch: Sequence[Query[Answer]]) -> Future[_Answers[Answer]] | None:
    try:
        return executor.submit(_answers, opened, batch)
    except BrokenExecutor:
        return None


def _in_order(
    opened: _Open, batches: Sequence[Sequence[Query[Answer]]], futures: Sequence[Future[_Answers[Answer]] | None],
) -> Iterator[Answer | QueryError]:
    try:
        for batch, future in zip(batches, futures):
            yield from _result(opened, batch, future)
    finally:
        for future in futures:
            if future:
                future.cancel()


def _result(opened: _Open, batch: Sequence[Query[Answer]], future: Future[_Answers[Answer]] | None) -> _Answers[Answer]:
    try:
        if future:
            return future.result()
    except BrokenExecutor:
        pass
    return _answers(opened, batch)


def _answers(opened: _Open, batch: Sequence[Query[Answer]]) -> _Answers[Answer]:
    """What a worker does. If its program is killed from outside, as where memory runs out, it does so once more."""
    try:
        return _answers_of_one_session(opened, batch)
    except ProcessFault as fault:
        if fault.code >= 0:
            raise
    return _answers_of_one_session(opened, batch)


def _answers_of_one_session(opened: _Open, batch: Sequence[Query[Answer]]) -> _Answers[Answer]:
    with opened() as session:
        return [_answer(session, query) for query in batch]


def _answer(session: Session, query: Query[Answer]) -> Answer | QueryError:
    try:
        return session.ask(query)
    except QueryError as error:
        return error
