"""A pool of sessions with one repository, which answer queries side by side.

    with SessionPool(repository, 4) as pool:
        answers = [pool.submit(queries.inhabited(goal)) for goal in goals]
        print([answer.result() for answer in answers])
"""

from __future__ import annotations

import os
from collections.abc import Iterable, Iterator, Sequence
from concurrent.futures import Future, ThreadPoolExecutor
from contextlib import ExitStack, contextmanager
from queue import SimpleQueue
from types import TracebackType
from typing import TypeVar

from clsynth.errors import SessionClosed
from clsynth.lint import issue, warnings_of
from clsynth.queries import Query, check_keeps
from clsynth.repository import Repository
from clsynth.session import Session

__all__ = ["SessionPool"]

Answer = TypeVar("Answer")


class SessionPool:
    """So many sessions, each with a program of its own. The other arguments are those of `Session`. What `lint` warns of is issued once.

    Which session answers a query is open. It matters only where a grammar or a certificate has names that the repository hasn't: give
    these as `names`, and all sessions write them in the same order.
    """

    def __init__(
        self, repository: Repository | str, size: int, *, program: str | os.PathLike[str] | None = None, workers: int | None = None,
        max_goals: int | None = None, max_rules: int | None = None, pool: int | str | None = None, words: Sequence[str] = (),
        timeout: float | None = None, names: Iterable[str] = (), lint: bool = True,
    ) -> None:
        if size < 1:
            raise ValueError(f"a pool has at least one session, and not {size}")
        names = tuple(names)
        self._idle: SimpleQueue[Session] = SimpleQueue()
        with ExitStack() as opened:
            for _ in range(size):
                session = Session(
                    repository, program=program, workers=workers, max_goals=max_goals, max_rules=max_rules, pool=pool, words=words,
                    timeout=timeout, names=names, lint=False,
                )
                self._idle.put(opened.enter_context(session))
            self._sessions = opened.pop_all()
        self._threads = ThreadPoolExecutor(size, thread_name_prefix="clsynth")
        self._is_closed = False
        if lint:
            issue(warnings_of(str(repository)), stacklevel=2)

    def __enter__(self) -> SessionPool:
        return self

    def __exit__(self, kind: type[BaseException] | None, error: BaseException | None, trace: TracebackType | None) -> None:
        if kind is None:
            self.close()
            return
        self._is_closed = True
        self._threads.shutdown(wait=False, cancel_futures=True)
        self._sessions.__exit__(kind, error, trace)

    def close(self) -> None:
        """Waits for the queries that were submitted, and ends all sessions. Where `with` ends by an exception, they are cancelled."""
        self._is_closed = True
        self._threads.shutdown()
        self._sessions.close()

    @contextmanager
    def session(self) -> Iterator[Session]:
        """Lends a session, which nobody else uses meanwhile. Waits until one is free."""
        if self._is_closed:
            raise SessionClosed("the pool has ended")
        session = self._idle.get()
        try:
            yield session
        finally:
            self._idle.put(session)

    def ask(self, query: Query[Answer], *, timeout: float | None = None) -> Answer:
        """The answer to a query of the module `queries`, by the session that is free first. It may change no repository: only one of the
        sessions would have the change."""
        check_keeps(query)
        with self.session() as session:
            return session.ask(query, timeout=timeout)

    def submit(self, query: Query[Answer], *, timeout: float | None = None) -> Future[Answer]:
        """The same, without waiting for it."""
        check_keeps(query)
        return self._threads.submit(lambda: self.ask(query, timeout=timeout))
