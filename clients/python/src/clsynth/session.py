"""A session: a program that has read a repository, and answers queries about it.

    with Session(repository) as session:
        if session.inhabited("List(Int)"):
            for term in session.terms("List(Int)"):
                print(term)

The repository is a `Repository`, or the text of its lines as docs/LANGUAGE.md has them. A type or a term is a value or a text. A query
that the program answers with an error raises an exception of its own class, and the session goes on.
"""

from __future__ import annotations

import math
import os
import threading
from collections.abc import Callable, Iterable, Iterator, Mapping, Sequence
from contextlib import contextmanager
from functools import cached_property
from types import TracebackType
from typing import Any, TypeVar

from clsynth import queries
from clsynth.certificates import Certificate
from clsynth.changes import Changes
from clsynth.errors import (
    ERRORS, BadReply, InputFull, ProcessFault, QueryCancelled, QueryError, QueryStopped, QueryTimeout, RepositoryRefused, RepositoryTooLong,
    SessionClosed, TooManyTerms,
)
from clsynth.evaluation import Functions
from clsynth.explain import explain_error
from clsynth.filters import Filter
from clsynth.grammars import Grammar
from clsynth.limits import MAX_INPUT_BYTES, MAX_SIZE
from clsynth.lint import issue, warnings_of
from clsynth.names import check_name
from clsynth.numbering import Numbering
from clsynth.paging import Paging, filtered_paging, term_paging, text_paging
from clsynth.program import Options, Program, find_program
from clsynth.queries import Query
from clsynth.replies import Event, Page, Sizes, TermText, Verdict
from clsynth.repository import Repository
from clsynth.terms import Term, TermLike
from clsynth.tokens import bytes_of
from clsynth.transcripts import Input
from clsynth.types import TypeLike

__all__ = ["Session"]

Answer = TypeVar("Answer")
Entry = TypeVar("Entry")
# Nothing is written for a repository in order, so a query is asked to which the reply is `yes`.
_GREETING = "sub omega <= omega"


class Session:
    """A running program that has read a repository.

    The program is found as `find_program` says. The line `end` may be left out of the repository. `workers`, `max_goals`, `max_rules` and
    `pool` are options of the program, and `words` are further words of its command line, for a program that has more options. One that
    doesn't take them raises `UsageFault`. `timeout` bounds each query, in seconds, with the start of a new program if there is one.

    A program takes 1,048,576 bytes of input. Where a query has no room any more, a new program is started, which reads the repository
    again, and is told which components came and went, and answers as the old one would have. One is also started for the query after one
    that was stopped by its time bound, by `cancel` or by an exception, and after the program ended by itself. The text of a `Repository` is
    taken once: what is declared later isn't in it.

    Where a grammar or a certificate has constructors that the repository hasn't, its text depends on which of them came first. `names`
    count as if they had come before the first query, in this order. A new program is told the names that came before, until they take
    more than half of the room.

    Threads may share a session: their queries are answered one after another.

    With `lint` what the module `lint` warns of in the repository is issued as a `RepositoryWarning`.
    """

    def __init__(
        self, repository: Repository | str, *, program: str | os.PathLike[str] | None = None, workers: int | None = None,
        max_goals: int | None = None, max_rules: int | None = None, pool: int | str | None = None, words: Sequence[str] = (),
        timeout: float | None = None, names: Iterable[str] = (), lint: bool = True,
    ) -> None:
        if not isinstance(repository, Repository | str):
            raise TypeError(f"a repository is a Repository or its text, as `Path.read_text` gives it, and no {type(repository).__name__}")
        self._words = [find_program(program), *Options(workers, max_goals, max_rules, pool, tuple(words)).words()]
        self._functions = repository.functions if isinstance(repository, Repository) else {}
        self._repository = _with_end(str(repository))
        self._numbering = Numbering(map(check_name, names))
        self._changes = Changes()
        self._timeout = timeout
        self._turn = threading.Lock()
        self._attempt: _Attempt | None = None
        self._program: Program | None = None
        self._is_closed = False
        with self._under_way(_GREETING, timeout) as attempt:
            self._program_for(0, attempt)
        if lint:
            issue(warnings_of(str(repository)), stacklevel=2)

    def __enter__(self) -> Session:
        return self

    def __exit__(self, kind: type[BaseException] | None, error: BaseException | None, trace: TracebackType | None) -> None:
        if kind is None:
            self.close()
            return
        self._is_closed = True
        self.cancel()
        with self._turn:
            self._abandon()

    def close(self) -> None:
        """Ends the input, and waits for the program to end. A query that is under way in another thread is answered first."""
        with self._turn:
            self._is_closed = True
            program, self._program = self._program, None
            if program:
                program.close()

    def cancel(self) -> None:
        """Stops the query that is under way in another thread, if there is one. It raises `QueryCancelled` there."""
        attempt = self._attempt
        if attempt:
            attempt.stop(QueryCancelled)

    @property
    def bytes_left(self) -> int:
        """How many bytes of queries the running program still takes. For a query that is longer, a new one is started."""
        return self._program.bytes_left if self._program else self._room()

    def ask(self, query: Query[Answer], *, timeout: float | None = None) -> Answer:
        """The answer to a query of the module `queries`. It is bounded by so many seconds, or else by those of the session."""
        piece = _bytes(*query.lines)
        with self._under_way(query.lines[0], timeout) as attempt:
            program = self._program_for(len(piece), attempt)
            program.send(piece)
            first = program.line()
            if first.startswith("error "):
                raise self._error(query, first)
            try:
                answer = query.read(first, program)
            except (ValueError, LookupError) as error:
                raise BadReply(query.lines[0], first) from error
            self._numbering.add(query)
            self._changes.take(query)
            return answer

    def is_subtype(self, lower: TypeLike, upper: TypeLike, *, timeout: float | None = None) -> bool:
        """Whether the first type is a subtype of the second."""
        return self.ask(queries.is_subtype(lower, upper), timeout=timeout)

    def paths(self, component: str, *, timeout: float | None = None) -> list[str]:
        """The paths of a component: the parts whose intersection is its type."""
        return self.ask(queries.paths(component), timeout=timeout)

    def has_type(self, term: TermLike, goal: TypeLike, *, timeout: float | None = None) -> bool:
        """Whether the term has the type."""
        return self.ask(queries.has_type(term, goal), timeout=timeout)

    def inhabited(self, goal: TypeLike, *, timeout: float | None = None) -> bool:
        """Whether some term has the type."""
        return self.ask(queries.inhabited(goal), timeout=timeout)

    def batch(self, goals: Iterable[TypeLike], *, timeout: float | None = None) -> list[bool]:
        """Whether some term has each of up to 64 types. What they share is looked for once, and the bounds of the session count it once."""
        return self.ask(queries.batch(goals), timeout=timeout)

    def page(
        self, goal: TypeLike, take: int, *, max_size: int = MAX_SIZE, after: TermLike | None = None, timeout: float | None = None,
    ) -> Page[Term]:
        """The first so many terms of the type, or those after a term. They have at most 64 component occurrences each."""
        return self.ask(queries.page(goal, take, max_size=max_size, after=after), timeout=timeout)

    def text_page(
        self, goal: TypeLike, take: int, *, max_size: int = MAX_SIZE, after: TermLike | None = None, timeout: float | None = None,
    ) -> Page[TermText]:
        """The same, with the text of each term."""
        return self.ask(queries.text_page(goal, take, max_size=max_size, after=after), timeout=timeout)

    def filtered_page(
        self, filter: Filter | str, goal: TypeLike, take: int, *, max_size: int = MAX_SIZE, after: TermLike | None = None,
        timeout: float | None = None,
    ) -> Page[Term]:
        """The same as `page`, of the terms alone that the filter of the repository accepts. It is given by its name, or as it was declared."""
        return self.ask(queries.filtered_page(filter, goal, take, max_size=max_size, after=after), timeout=timeout)

    def terms(
        self, goal: TypeLike, *, max_size: int = MAX_SIZE, page_size: int = 100, after: TermLike | None = None, timeout: float | None = None,
    ) -> Iterator[Term]:
        """All terms of the type with at most 64 component occurrences, small ones first, from pages that are fetched one after another.
        Other queries may be asked meanwhile. The time bound is that of a page. Where too many terms count for a page, the following ones
        are smaller, and `TooManyTerms` is raised if they count for a page of one term."""
        return self._entries(term_paging(goal, page_size, max_size, after), timeout)

    def texts(
        self, goal: TypeLike, *, max_size: int = MAX_SIZE, page_size: int = 100, after: TermLike | None = None, timeout: float | None = None,
    ) -> Iterator[TermText]:
        """The same, with the text of each term."""
        return self._entries(text_paging(goal, page_size, max_size, after), timeout)

    def filtered(
        self, filter: Filter | str, goal: TypeLike, *, max_size: int = MAX_SIZE, page_size: int = 100, after: TermLike | None = None,
        timeout: float | None = None,
    ) -> Iterator[Term]:
        """The same as `terms`, of the terms alone that the filter of the repository accepts."""
        return self._entries(filtered_paging(filter, goal, page_size, max_size, after), timeout)

    def pages(self, paging: Paging[Entry], *, timeout: float | None = None) -> Iterator[Page[Entry]]:
        """The pages of a listing in turn, as the module `paging` makes it, each when it is asked for."""
        while paging.has_more:
            try:
                page = self.ask(paging.query, timeout=timeout)
            except TooManyTerms:
                if not paging.shrinks():
                    raise
            else:
                paging.take(page)
                yield page

    def values(
        self, goal: TypeLike, functions: Mapping[str, object] | None = None, *, max_size: int = MAX_SIZE, page_size: int = 100,
        after: TermLike | None = None, timeout: float | None = None,
    ) -> Iterator[Any]:
        """What the terms of the type come to by these functions, as `evaluate` says, each when it is asked for. Without functions they
        are the `call` of each component of the `Repository`."""
        table = Functions(self._functions if functions is None else functions)
        return map(table.evaluate, self.terms(goal, max_size=max_size, page_size=page_size, after=after, timeout=timeout))

    def grammar(self, goal: TypeLike, *, timeout: float | None = None) -> Grammar:
        """The tree grammar of the terms of the type."""
        return self.ask(queries.grammar(goal), timeout=timeout)

    def certify(self, goal: TypeLike, *, timeout: float | None = None) -> Certificate:
        """A certificate that some term has the type, or that none has."""
        return self.ask(queries.certify(goal), timeout=timeout)

    def verify(self, goal: TypeLike, certificate: Certificate | str, *, timeout: float | None = None) -> Verdict:
        """Whether the certificate shows this of the type. If it is a text, its last line is `qed`, or `NoQed` is raised."""
        return self.ask(queries.verify(goal, certificate), timeout=timeout)

    def sizes(self, goal: TypeLike, *, timeout: float | None = None) -> Sizes:
        """How large the terms of the type are. All terms count, also those that are too long for a page."""
        return self.ask(queries.sizes(goal), timeout=timeout)

    def add(self, component: str, type: TypeLike, *, timeout: float | None = None) -> None:
        """Adds a component behind the others: each later query is answered as if it had been declared last. Its template is its name, and
        its cost is 1. Variables of its type have the kinds that the repository gives them. Raises `ComponentRefused` if no repository may
        have it."""
        self.ask(queries.add(component, type), timeout=timeout)

    def drop(self, component: str, *, timeout: float | None = None) -> None:
        """Takes out a component, with its template, its cost, and what filters say of it. One that is added again is a new one, and goes
        last."""
        self.ask(queries.drop(component), timeout=timeout)

    def history(self, goal: TypeLike, *, timeout: float | None = None) -> list[Event]:
        """Which worker claimed and filed which row of the closure. It may differ from run to run."""
        return self.ask(queries.history(goal), timeout=timeout)

    def _entries(self, paging: Paging[Entry], timeout: float | None) -> Iterator[Entry]:
        return (entry for page in self.pages(paging, timeout=timeout) for entry in page.entries)

    @contextmanager
    def _under_way(self, query: str, timeout: float | None) -> Iterator[_Attempt]:
        """Lets other threads stop what is done. If it ends in the middle of a reply, the program is given up."""
        attempt = _Attempt()
        with self._turn:
            # In this order: whoever closes the session stops the attempt, or the attempt sees that it is closed.
            self._attempt = attempt
            if self._is_closed:
                raise SessionClosed("the session has ended")
            timer = _timer(self._timeout if timeout is None else timeout, lambda: attempt.stop(QueryTimeout))
            try:
                yield attempt
            except (QueryError, InputFull):
                raise
            except BaseException as error:
                self._abandon()
                if attempt.stopped_by and isinstance(error, ProcessFault):
                    raise attempt.stopped_by(query) from None
                raise
            finally:
                if timer:
                    timer.cancel()
                if attempt.end():
                    self._abandon()

    def _program_for(self, size: int, attempt: _Attempt) -> Program:
        """A program with room for so many bytes."""
        if self._program and size > self._program.bytes_left:
            self._make_room(size)
            self._abandon()
        if self._program and self._program.has_ended:
            self._abandon()
        if self._program:
            attempt.begin(self._program)
        else:
            self._make_room(size)
            self._program = Program(self._words)
            attempt.begin(self._program)
            self._greet(self._program)
        return self._program

    def _make_room(self, size: int) -> None:
        """Has a new program take so many bytes, if any can. Names that take the room, or more than half of it, are forgotten."""
        room = MAX_INPUT_BYTES - len(_bytes(*self._repository, *self._changed(), _GREETING))
        if room < 0:
            raise RepositoryTooLong("the repository", MAX_INPUT_BYTES - room, MAX_INPUT_BYTES)
        if size > room:
            raise InputFull(size, room)
        if self._room() < max(size, room // 2):
            self._numbering.forget()

    def _room(self) -> int:
        """How many bytes of queries a new program takes."""
        return MAX_INPUT_BYTES - len(self._opening())

    def _opening(self) -> bytes:
        """What a new program is sent first."""
        return _bytes(*self._repository, *self._numbering.lines(), *self._changed(), _GREETING)

    def _changed(self) -> Iterator[str]:
        return (line for line, _ in self._changes.lines())

    def _greet(self, program: Program) -> None:
        """Has a new program read the repository, and tells it the names that it should know and the components that came and went."""
        program.send(self._opening())
        for wanted in (*("yes" for _ in self._numbering.lines()), *(reply for _, reply in self._changes.lines()), "yes"):
            first = program.line()
            if first.startswith("refused "):
                raise self._refusal(first)
            if first.startswith("usage: "):
                raise program.fault()
            if first != wanted:
                raise BadReply(_GREETING, first)

    def _refusal(self, line: str) -> RepositoryRefused:
        """The refusal that the line says, with an explanation that is shown where nobody catches it."""
        _, number, *words = line.split(" ", 2)
        if not (number.isascii() and number.isdigit() and words):
            raise BadReply(_GREETING, line)
        error = RepositoryRefused(int(number), words[0])
        error.add_note(explain_error(error, self._input, "repository"))
        return error

    def _error(self, query: Query[object], line: str) -> QueryError:
        """The error that the line says, with an explanation that is shown where nobody catches it."""
        _, word, *detail = line.split(" ", 2)
        error = ERRORS[word](query.lines[0], *detail) if word in ERRORS else QueryError(query.lines[0], " ".join([word, *detail]))
        if not error.advice:
            error.add_note(explain_error(error, self._input, "query"))
        self._numbering.add(query, error)
        return error

    @cached_property
    def _input(self) -> Input:
        return Input(_bytes(*self._repository))

    def _abandon(self) -> None:
        program, self._program = self._program, None
        if program:
            program.abandon()


class _Attempt:
    """A query that is under way. Any thread may stop it, until it ends."""

    def __init__(self) -> None:
        self._lock = threading.Lock()
        self._program: Program | None = None
        self._has_ended = False
        self.stopped_by: type[QueryStopped] | None = None

    def begin(self, program: Program) -> None:
        """Says which program answers it."""
        with self._lock:
            self._program = program
            if self.stopped_by:
                program.kill()

    def stop(self, cause: type[QueryStopped]) -> None:
        """Ends its program, if there is something to be stopped."""
        with self._lock:
            if not self._has_ended and not self.stopped_by:
                self.stopped_by = cause
                if self._program:
                    self._program.kill()

    def end(self) -> bool:
        """Says that it has ended, and tells whether it was stopped."""
        with self._lock:
            self._has_ended = True
            return self.stopped_by is not None


def _timer(seconds: float | None, stop: Callable[[], None]) -> threading.Timer | None:
    if seconds is None or math.isinf(seconds):
        return None
    timer = threading.Timer(seconds, stop)
    timer.daemon = True
    timer.start()
    return timer


def _bytes(*lines: str) -> bytes:
    # What isn't UTF-8 is left to the program, which says so.
    return bytes_of("".join(f"{line}\n" for line in lines))


def _with_end(repository: str) -> list[str]:
    """The lines of the repository with the line `end` as the last one."""
    lines = repository.rstrip("\n").split("\n")
    ends = [number for number, line in enumerate(lines) if line.strip(" \t\r") == "end"]
    if ends and ends[0] != len(lines) - 1:
        raise ValueError("lines stand behind the end of the repository")
    return lines + ([] if ends else ["end"])
