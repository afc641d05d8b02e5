"""What goes wrong, each as an exception of its own class. All of them are a `ClsynthError`.

- `RepositoryFault` and its subclasses: a declaration that no repository can have. They are raised where the declaration is made.
- `RepositoryRefused`: the program refuses the repository.
- `QueryError` and its subclasses: a query that the program answers with an error. The session goes on.
- `ProcessFault`, `QueryTimeout`, `QueryCancelled`: the program ended before it had answered. The next query starts a new one.

Each can be pickled, so an error of a query comes back from another process as it was.
"""

from __future__ import annotations

from collections.abc import Iterable
from enum import Enum
from typing import Any, ClassVar

from clsynth.limits import MAX_INPUT_BYTES, MAX_POOL

__all__ = [
    "ERRORS", "AmbiguousType", "BadCertificate", "BadCost", "BadName", "BadReply", "BadTemplate", "ClosureTooLarge", "ClsynthError",
    "ComponentRefused", "DuplicateComponent", "DuplicateName", "EmptyKind", "FilteredTooLarge", "InputFull", "KindTooLarge",
    "LimitExceeded", "LineTooLong", "MissingFunction", "NoQed", "NotUtf8", "NumberOutOfRange", "ParseFault", "PlacedError", "ProcessFault",
    "ProgramNotFound", "QueryCancelled", "QueryError", "QueryStopped", "QueryTimeout", "RepositoryFault", "RepositoryLineTooLong",
    "RepositoryRefused", "RepositoryTooLong", "ReservedName", "SessionClosed", "Status", "SyntaxFault", "TooDeep", "TooManyComponents",
    "TooManyNodes", "TooManyStates", "TooManyTerms", "TypeTooDeep", "TypeTooLarge", "TypeTooLong", "UnknownComponent", "UnknownInTerm",
    "UsageFault", "VariableInKind", "VariableInQuery", "WideGoal",
]


class ClsynthError(Exception):
    """What clsynth can't do."""


class ParseFault(ClsynthError, ValueError):
    """A text that isn't read. `place` is the character of `text`, counted from 0, at which it goes wrong, and `line` the number of
    the line, if the text is one line of many."""

    def __init__(self, text: str, place: int, wanted: str, line: int | None = None) -> None:
        where = f"character {place}" if line is None else f"line {line}, character {place}"
        super().__init__(f"{where}: {wanted} is wanted: {text[:200]}")
        self.text = text
        self.place = place
        self.wanted = wanted
        self.line = line

    def __reduce__(self) -> tuple[Any, ...]:
        return type(self), (self.text, self.place, self.wanted, self.line)


class AmbiguousType(ClsynthError, TypeError):
    """An expression of Python that reads as another type than it looks like: its operators group otherwise than those of the language."""


class MissingFunction(ClsynthError, LookupError):
    """A term has components for which the table of functions has nothing. `names` are these components. Nothing was run."""

    def __init__(self, names: Iterable[str]) -> None:
        self.names = tuple(names)
        super().__init__(f"no function is given for {', '.join(self.names)}")

    def __reduce__(self) -> tuple[Any, ...]:
        return type(self), (self.names,)


class RepositoryFault(ClsynthError, ValueError):
    """A declaration that no repository can have."""


class BadName(RepositoryFault):
    """A name that the language doesn't have."""


class DuplicateName(RepositoryFault):
    """A name that is declared twice."""


class EmptyKind(RepositoryFault):
    """A kind without types."""


class VariableInKind(RepositoryFault):
    """A type of a kind has a variable."""


class BadCost(RepositoryFault):
    """A cost that isn't from 1 to 255."""


class BadTemplate(RepositoryFault):
    """A text that is no template."""


class LimitExceeded(RepositoryFault):
    """More than the language allows. `count` is how many there are, and `limit` how many there may be."""

    unit: ClassVar[str] = ""

    def __init__(self, what: str, count: int, limit: int) -> None:
        super().__init__(f"{what} has {count:,} {self.unit}, and may have {limit:,}")
        self.what = what
        self.count = count
        self.limit = limit

    def __reduce__(self) -> tuple[Any, ...]:
        return type(self), (self.what, self.count, self.limit)


class TooManyComponents(LimitExceeded):
    """A repository has more than 1,000 components."""
    unit = "components"


class TooManyStates(LimitExceeded):
    """A filter has more than 16 states."""
    unit = "states"


class RepositoryTooLong(LimitExceeded):
    """The lines of a repository have more than 1,048,576 bytes."""
    unit = "bytes"


class RepositoryLineTooLong(LimitExceeded):
    """A line of a repository has more than 65,536 bytes."""
    unit = "bytes"


class TypeTooLong(LimitExceeded):
    """A type has more than 1,024 nodes."""
    unit = "nodes"


class TypeTooDeep(LimitExceeded):
    """A type has more than 64 parentheses that are open at once."""
    unit = "parentheses that are open at once"


class KindTooLarge(LimitExceeded):
    """The types of a component are more than the choices of kinds can stand for."""
    unit = "choices"


class RepositoryRefused(ClsynthError):
    """The repository has a fault. `line` is the number of its line, and `words` say what is wrong."""

    def __init__(self, line: int, words: str) -> None:
        super().__init__(f"line {line}: {words}")
        self.line = line
        self.words = words

    def __reduce__(self) -> tuple[Any, ...]:
        return type(self), (self.line, self.words)


class Status(Enum):
    """With which status the program ends."""

    DONE = 0
    USAGE = 1
    REFUSED = 2
    READ_FAULT = 3
    WRITE_FAULT = 4
    NO_MEMORY = 5
    TOO_LONG = 6


class ProgramNotFound(ClsynthError, FileNotFoundError):
    """There is no program. `places` say where it was looked for, and what was found there."""

    def __init__(self, places: Iterable[str]) -> None:
        self.places = tuple(places)
        super().__init__("\n  ".join(["the program clsynth isn't found. It was looked for at:", *self.places]) + f"\n{_HOW_TO_GET_ONE}")

    def __reduce__(self) -> tuple[Any, ...]:
        return type(self), (self.places,)


_HOW_TO_GET_ONE = (
    "To get it: a release has it, in the wheel and in the package of Debian. In a clone of the repository of clsynth, "
    "`tools/install PREFIX` puts it into PREFIX/bin. "
    "Then put PREFIX/bin on the PATH, or set the variable CLSYNTH to PREFIX/bin/clsynth, or give its path as `program`."
)


class ProcessFault(ClsynthError):
    """The program ended before it had answered. `status` says why, and is None if it has no such status."""

    def __init__(self, code: int) -> None:
        self.code = code
        self.status = next((status for status in Status if status.value == code), None)
        named = f", {self.status.name}," if self.status else ""
        super().__init__(f"the program ended with status {code}{named} before it had answered")

    def __reduce__(self) -> tuple[Any, ...]:
        return type(self), (self.code,)


class UsageFault(ProcessFault):
    """The program doesn't take the words of its command line. `words` are these, and the program before them."""

    def __init__(self, words: Iterable[str]) -> None:
        super().__init__(Status.USAGE.value)
        self.words = tuple(words)
        program, *others = self.words
        told = f"It doesn't take the words `{' '.join(others)}`: `{program} --help` writes which ones it takes"
        self.args = (f"{self}. {told if others else f'{program} was given no words, and seems to be another program'}",)

    def __reduce__(self) -> tuple[Any, ...]:
        return type(self), (self.words,)


class BadReply(ClsynthError):
    """What was written isn't a reply to the query: the program is another one than this package speaks with, or another version of it."""

    def __init__(self, query: str, line: str) -> None:
        super().__init__(f"{line[:200]!r} is no reply to the query: {query[:200]}")
        self.query = query
        self.line = line

    def __reduce__(self) -> tuple[Any, ...]:
        return type(self), (self.query, self.line)


class SessionClosed(ClsynthError):
    """The session has ended."""


class InputFull(ClsynthError):
    """The repository and this query alone have more than 1,048,576 bytes. It isn't sent."""

    def __init__(self, count: int, room: int) -> None:
        super().__init__(f"the query has {count:,} bytes. Behind the repository there is room for {room:,} of {MAX_INPUT_BYTES:,}")
        self.count = count
        self.room = room

    def __reduce__(self) -> tuple[Any, ...]:
        return type(self), (self.count, self.room)


class QueryStopped(ClsynthError):
    """A query that was given up. Its program was killed, and the next query starts a new one. `query` is its line."""

    def __init__(self, query: str) -> None:
        super().__init__(f"{type(self).__name__}: {query[:200]}")
        self.query = query

    def __reduce__(self) -> tuple[Any, ...]:
        return type(self), (self.query,)


class QueryTimeout(QueryStopped, TimeoutError):
    """A query took longer than its time bound."""


class QueryCancelled(QueryStopped):
    """A query was cancelled."""


class QueryError(ClsynthError):
    """A query that isn't answered. `query` is its line, `detail` what the reply says behind the word of the error, and `advice` what
    may be done about it."""

    word: ClassVar[str] = ""
    advice: ClassVar[str] = ""

    def __init__(self, query: str, detail: str = "") -> None:
        told = f"{type(self).__name__} {detail}".strip() + f": {query[:200]}"
        super().__init__(f"{told}\n{self.advice}" if self.advice else told)
        self.query = query
        self.detail = detail

    def __reduce__(self) -> tuple[Any, ...]:
        return type(self), (self.query, self.detail)


class PlacedError(QueryError):
    """An error at a byte of the query's line, which is counted from 0."""

    @property
    def byte(self) -> int:
        return int(self.detail)


class LineTooLong(QueryError):
    """The line of the query has more than 65,536 bytes."""
    word = "long"


class NotUtf8(QueryError):
    """The line of the query isn't UTF-8."""
    word = "utf8"


class TooDeep(QueryError):
    """More than 64 parentheses are open at once."""
    word = "deep"


class SyntaxFault(PlacedError):
    """The line is of no form of a query."""
    word = "syntax"


class ReservedName(PlacedError):
    """`omega` stands where a name may stand."""
    word = "reserved"


class TooManyNodes(QueryError):
    """A type has more than 1,024 nodes."""
    word = "nodes"


class VariableInQuery(PlacedError):
    """A type has a variable."""
    word = "variable"


class NumberOutOfRange(QueryError):
    """The greatest size isn't from 1 to 1,024, the number of terms isn't from 1 to 10,000, or more than 64 types are asked at once."""
    word = "number"


class UnknownComponent(QueryError):
    """No component has the name `detail`, or no filter where the query is `filtered`."""
    word = "unknown"


class DuplicateComponent(QueryError):
    """A component to be added has the name `detail` of one that is there."""
    word = "duplicate"


class ComponentRefused(QueryError):
    """A component to be added is refused. `detail` says what is wrong, in the words for which a repository is refused."""
    word = "refused"


class UnknownInTerm(PlacedError):
    """A name in a term is none of a component."""
    word = "token"


class BadCertificate(QueryError):
    """A line of the certificate is bad."""
    word = "certificate"

    @property
    def line(self) -> int:
        """The number of the bad line, counted from 1."""
        return int(self.detail)


class NoQed(QueryError):
    """The certificate doesn't end with the line `qed`."""
    word = "no-qed"


class TypeTooLarge(QueryError):
    """A type is too large to be taken apart."""
    word = "size"


class ClosureTooLarge(QueryError):
    """The closure has more goals or rules than the session allows."""
    word = "too-large"
    advice = "A session with greater max_goals (at most 20,000) and max_rules (at most 1,000,000) allows more."


class WideGoal(QueryError):
    """The goal `detail` of the closure can be met in too many ways."""
    word = "wide"


class FilteredTooLarge(QueryError):
    """The closure, filtered, has more rules than the session allows."""
    word = "filter-large"
    advice = "A session with a greater max_rules (at most 1,000,000) allows more. A filter with fewer states needs less."


class TooManyTerms(QueryError):
    """More terms count for the page than the session allows."""
    word = "too-many-terms"
    advice = (
        f"A session with a greater pool (at most {MAX_POOL:,}) lists more. Fewer terms, a smaller max_size or a narrower type need less. "
        "inhabited, sizes, grammar and certify have no such bound."
    )


ERRORS: dict[str, type[QueryError]] = {
    error.word: error for error in (*QueryError.__subclasses__(), *PlacedError.__subclasses__()) if error.word
}
"""The class of each error, by the word that the program writes."""
