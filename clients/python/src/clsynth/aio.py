"""A session for asyncio.

    async with AsyncSession(repository) as session:
        async for term in session.terms("List(Int)"):
            print(term)

Each session has a thread that waits for its program. Where the task that waits for an answer is cancelled, the program is killed, and the
next query starts a new one.
"""

from __future__ import annotations

import asyncio
import os
from collections.abc import AsyncIterator, Callable, Iterable, Mapping, Sequence
from concurrent.futures import ThreadPoolExecutor
from functools import partial
from types import TracebackType
from typing import Any, TypeVar

from clsynth import queries
from clsynth.certificates import Certificate
from clsynth.errors import SessionClosed, TooManyTerms
from clsynth.evaluation import Functions
from clsynth.filters import Filter
from clsynth.grammars import Grammar
from clsynth.limits import MAX_SIZE
from clsynth.lint import issue, warnings_of
from clsynth.paging import Paging, filtered_paging, term_paging, text_paging
from clsynth.queries import Query
from clsynth.replies import Event, Page, Sizes, TermText, Verdict
from clsynth.repository import Repository
from clsynth.session import Session
from clsynth.terms import Term, TermLike
from clsynth.types import TypeLike

__all__ = ["AsyncSession"]

Answer = TypeVar("Answer")
Entry = TypeVar("Entry")
Result = TypeVar("Result")
# While a thread begins its work, it can't be stopped: so many seconds later it is tried again.
_PAUSE = 0.01


class AsyncSession:
    """A session whose methods are coroutines. The arguments are those of `Session`, whose program starts at `async with`."""

    def __init__(
        self, repository: Repository | str, *, program: str | os.PathLike[str] | None = None, workers: int | None = None,
        max_goals: int | None = None, max_rules: int | None = None, pool: int | str | None = None, words: Sequence[str] = (),
        timeout: float | None = None, names: Iterable[str] = (), lint: bool = True,
    ) -> None:
        self._open = partial(
            Session, repository, program=program, workers=workers, max_goals=max_goals, max_rules=max_rules, pool=pool, words=words,
            timeout=timeout, names=tuple(names), lint=False,
        )
        self._lint = partial(warnings_of, str(repository)) if lint else None
        self._functions = repository.functions if isinstance(repository, Repository) else {}
        self._turn = asyncio.Lock()
        self._thread = ThreadPoolExecutor(1, thread_name_prefix="clsynth")
        self._session: Session | None = None

    async def __aenter__(self) -> AsyncSession:
        try:
            await self._run(self._start)
            texts = await self._run(self._lint) if self._lint else ()
        except BaseException:
            await self.aclose()
            raise
        issue(texts, stacklevel=2)
        return self

    async def __aexit__(self, kind: type[BaseException] | None, error: BaseException | None, trace: TracebackType | None) -> None:
        await self.aclose()

    async def aclose(self) -> None:
        """Ends the input, and waits for the program to end."""
        session, self._session = self._session, None
        try:
            if session:
                await self._run(session.close)
        finally:
            self._thread.shutdown(wait=False)

    async def ask(self, query: Query[Answer], *, timeout: float | None = None) -> Answer:
        """The answer to a query of the module `queries`. It is bounded by so many seconds, or else by those of the session."""
        if not self._session:
            raise SessionClosed("the session is open within `async with` only")
        ask = self._session.ask
        return await self._run(lambda: ask(query, timeout=timeout))

    async def is_subtype(self, lower: TypeLike, upper: TypeLike, *, timeout: float | None = None) -> bool:
        """Whether the first type is a subtype of the second."""
        return await self.ask(queries.is_subtype(lower, upper), timeout=timeout)

    async def paths(self, component: str, *, timeout: float | None = None) -> list[str]:
        """The paths of a component: the parts whose intersection is its type."""
        return await self.ask(queries.paths(component), timeout=timeout)

    async def has_type(self, term: TermLike, goal: TypeLike, *, timeout: float | None = None) -> bool:
        """Whether the term has the type."""
        return await self.ask(queries.has_type(term, goal), timeout=timeout)

    async def inhabited(self, goal: TypeLike, *, timeout: float | None = None) -> bool:
        """Whether some term has the type."""
        return await self.ask(queries.inhabited(goal), timeout=timeout)

    async def batch(self, goals: Iterable[TypeLike], *, timeout: float | None = None) -> list[bool]:
        """Whether some term has each of up to 64 types. What they share is looked for once, and the bounds of the session count it once."""
        return await self.ask(queries.batch(goals), timeout=timeout)

    async def page(
        self, goal: TypeLike, take: int, *, max_size: int = MAX_SIZE, after: TermLike | None = None, timeout: float | None = None,
    ) -> Page[Term]:
        """The first so many terms of the type, or those after a term. They have at most 64 component occurrences each."""
        return await self.ask(queries.page(goal, take, max_size=max_size, after=after), timeout=timeout)

    async def text_page(
        self, goal: TypeLike, take: int, *, max_size: int = MAX_SIZE, after: TermLike | None = None, timeout: float | None = None,
    ) -> Page[TermText]:
        """The same, with the text of each term."""
        return await self.ask(queries.text_page(goal, take, max_size=max_size, after=after), timeout=timeout)

    async def filtered_page(
        self, filter: Filter | str, goal: TypeLike, take: int, *, max_size: int = MAX_SIZE, after: TermLike | None = None,
        timeout: float | None = None,
    ) -> Page[Term]:
        """The same as `page`, of the terms alone that the filter of the repository accepts."""
        return await self.ask(queries.filtered_page(filter, goal, take, max_size=max_size, after=after), timeout=timeout)

    async def terms(
        self, goal: TypeLike, *, max_size: int = MAX_SIZE, page_size: int = 100, after: TermLike | None = None, timeout: float | None = None,
    ) -> AsyncIterator[Term]:
        """All terms of the type with at most 64 component occurrences, small ones first, from pages that are fetched one after another.
        The time bound is that of a page. Where too many terms count for a page, the following ones are smaller."""
        async for term in self._entries(term_paging(goal, page_size, max_size, after), timeout):
            yield term

    async def texts(
        self, goal: TypeLike, *, max_size: int = MAX_SIZE, page_size: int = 100, after: TermLike | None = None, timeout: float | None = None,
    ) -> AsyncIterator[TermText]:
        """The same, with the text of each term."""
        async for entry in self._entries(text_paging(goal, page_size, max_size, after), timeout):
            yield entry

    async def filtered(
        self, filter: Filter | str, goal: TypeLike, *, max_size: int = MAX_SIZE, page_size: int = 100, after: TermLike | None = None,
        timeout: float | None = None,
    ) -> AsyncIterator[Term]:
        """The same as `terms`, of the terms alone that the filter of the repository accepts."""
        async for term in self._entries(filtered_paging(filter, goal, page_size, max_size, after), timeout):
            yield term

    async def values(
        self, goal: TypeLike, functions: Mapping[str, object] | None = None, *, max_size: int = MAX_SIZE, page_size: int = 100,
        after: TermLike | None = None, timeout: float | None = None,
    ) -> AsyncIterator[Any]:
        """What the terms of the type come to by these functions, or by the `call` of each component. They are run in the task's thread."""
        table = Functions(self._functions if functions is None else functions)
        async for term in self.terms(goal, max_size=max_size, page_size=page_size, after=after, timeout=timeout):
            yield table.evaluate(term)

    async def grammar(self, goal: TypeLike, *, timeout: float | None = None) -> Grammar:
        """The tree grammar of the terms of the type."""
        return await self.ask(queries.grammar(goal), timeout=timeout)

    async def certify(self, goal: TypeLike, *, timeout: float | None = None) -> Certificate:
        """A certificate that some term has the type, or that none has."""
        return await self.ask(queries.certify(goal), timeout=timeout)

    async def verify(self, goal: TypeLike, certificate: Certificate | str, *, timeout: float | None = None) -> Verdict:
        """Whether the certificate shows this of the type. If it is a text, its last line is `qed`, or `NoQed` is raised."""
        return await self.ask(queries.verify(goal, certificate), timeout=timeout)

    async def sizes(self, goal: TypeLike, *, timeout: float | None = None) -> Sizes:
        """How large the terms of the type are. All terms count, also those that are too long for a page."""
        return await self.ask(queries.sizes(goal), timeout=timeout)

    async def add(self, component: str, type: TypeLike, *, timeout: float | None = None) -> None:
        """Adds a component behind the others: each later query is answered as if it had been declared last."""
        await self.ask(queries.add(component, type), timeout=timeout)

    async def drop(self, component: str, *, timeout: float | None = None) -> None:
        """Takes out a component, with its template, its cost, and what filters say of it."""
        await self.ask(queries.drop(component), timeout=timeout)

    async def history(self, goal: TypeLike, *, timeout: float | None = None) -> list[Event]:
        """Which worker claimed and filed which row of the closure. It may differ from run to run."""
        return await self.ask(queries.history(goal), timeout=timeout)

    async def _entries(self, paging: Paging[Entry], timeout: float | None) -> AsyncIterator[Entry]:
        while paging.has_more:
            try:
                page = await self.ask(paging.query, timeout=timeout)
            except TooManyTerms:
                if not paging.shrinks():
                    raise
            else:
                paging.take(page)
                for entry in page.entries:
                    yield entry

    def _start(self) -> None:
        self._session = self._open()

    async def _run(self, work: Callable[[], Result]) -> Result:
        """What the thread makes of the work. If the task is cancelled, the query is stopped, and waited for."""
        async with self._turn:
            future = asyncio.get_running_loop().run_in_executor(self._thread, work)
            try:
                await asyncio.wait((future,))
            except asyncio.CancelledError:
                while not future.done():
                    if self._session:
                        self._session.cancel()
                    await asyncio.wait((future,), timeout=_PAUSE)
                # What came of it is looked at, or asyncio would report an error that nobody saw.
                future.exception()
                raise
            return future.result()
