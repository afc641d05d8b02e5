"""Queries as values, which can be pickled and sent to other processes and machines.

    query = queries.page("List(Int)", 10)
    session.ask(query)      # the same as session.page("List(Int)", 10)

Each function makes the query of the session's method with its name. A query has its lines, and says how its reply is read.
"""

from __future__ import annotations

from collections.abc import Callable, Iterable, Iterator
from dataclasses import dataclass, replace
from typing import Generic, Protocol, TypeVar

from clsynth.certificates import Certificate, parse_certificate
from clsynth.errors import LineTooLong, NoQed, NotUtf8
from clsynth.filters import Filter
from clsynth.grammars import Grammar, parse_grammar
from clsynth.limits import MAX_BATCH, MAX_LINE_BYTES, MAX_SIZE, MAX_TAKE
from clsynth.replies import Event, Page, Sizes, Step, TermText, Verdict
from clsynth.terms import Term, TermLike
from clsynth.tokens import bytes_of, can_be_read
from clsynth.types import Type, TypeLike

__all__ = [
    "Query", "Reader", "add", "batch", "certify", "check_keeps", "drop", "filtered_page", "grammar", "has_type", "history", "inhabited",
    "is_subtype", "page", "paths", "sizes", "text_page", "verify",
]

Answer = TypeVar("Answer", covariant=True)


class Reader(Protocol):
    """What a reply is read from."""

    def line(self) -> str:
        """The next line, without its line feed."""

    def text(self, length: int) -> str:
        """The text of the next so many bytes, behind which a line feed stands."""


@dataclass(frozen=True)
class Query(Generic[Answer]):
    """A query with the form of its reply."""

    lines: tuple[str, ...]
    """What is sent. Behind the first line stands a certificate, if there are others."""
    read: Callable[[str, Reader], Answer]
    """Reads the reply to its end. It is given the first line, which is no error, and what the others are read from. A `ValueError` or a
    `LookupError` says that it is no such reply."""
    types: tuple[str, ...] = ()
    """The types in its first line. Where the program reads the line, their constructors get numbers, by which it orders types."""
    certificate_types: tuple[str, ...] = ()
    """The same of the lines behind it."""
    terms: tuple[str, ...] = ()
    """The terms in its first line."""
    filters: tuple[str, ...] = ()
    """The filters in its first line."""
    added: str | None = None
    """The component that it adds, if it adds one."""
    dropped: str | None = None
    """The component that it drops, if it drops one."""

    def __post_init__(self) -> None:
        if any("\n" in line for line in self.lines):
            raise ValueError("a line feed stands in a line of a query")
        if not self.lines or not self.lines[0].strip(" \t\r") or self.lines[0].lstrip(" \t\r").startswith("#"):
            raise ValueError("a line that is skipped gets no reply")


def check_keeps(query: Query[object]) -> None:
    """Raises a `ValueError` for a query that changes the repository."""
    if query.added is not None or query.dropped is not None:
        raise ValueError(f"a change of the repository is asked of one session: {query.lines[0][:200]}")


def is_subtype(lower: TypeLike, upper: TypeLike) -> Query[bool]:
    """Whether the first type is a subtype of the second."""
    types = _type(lower), _type(upper)
    return Query((f"sub {types[0]} <= {types[1]}",), _is_yes, types)


def paths(component: str) -> Query[list[str]]:
    """The paths of a component: the parts whose intersection is its type."""
    return Query((f"paths {_component(component)}",), _paths)


def has_type(term: TermLike, goal: TypeLike) -> Query[bool]:
    """Whether the term has the type."""
    type, asked = _type(goal), _term(term)
    return Query((f"typed {asked} : {type}",), _is_yes, (type,), terms=(asked,))


def inhabited(goal: TypeLike) -> Query[bool]:
    """Whether some term has the type."""
    return _of_type("inhabit", goal, _is_inhabited)


def batch(goals: Iterable[TypeLike]) -> Query[list[bool]]:
    """Whether some term has each of up to 64 types. What they share is looked for once, and the bounds of the session count it once."""
    if isinstance(goals, str | Type):
        raise TypeError(f"{goals!r} is no list of types")
    types = tuple(_type(goal) for goal in goals)
    if any("|" in type for type in types):
        raise ValueError("a bar stands in a type")
    return Query((f"batch {' | '.join(types)}",), _verdicts, types if len(types) <= MAX_BATCH else ())


def page(goal: TypeLike, take: int, *, max_size: int = MAX_SIZE, after: TermLike | None = None) -> Query[Page[Term]]:
    """The first so many terms of the type, or those after a term. They have at most 64 component occurrences each."""
    return _listing("list", goal, take, max_size, after, _page)


def text_page(goal: TypeLike, take: int, *, max_size: int = MAX_SIZE, after: TermLike | None = None) -> Query[Page[TermText]]:
    """The same, with the text of each term."""
    return _listing("texts", goal, take, max_size, after, _text_page)


def filtered_page(
    filter: Filter | str, goal: TypeLike, take: int, *, max_size: int = MAX_SIZE, after: TermLike | None = None,
) -> Query[Page[Term]]:
    """The same as `page`, of the terms alone that the filter accepts. It is given by its name, or as it was declared."""
    if not isinstance(filter, Filter | str):
        raise TypeError(f"{filter!r} is no filter and no name of one")
    name = str(filter)
    return replace(_listing(f"filtered {name}", goal, take, max_size, after, _page), filters=(name,))


def grammar(goal: TypeLike) -> Query[Grammar]:
    """The tree grammar of the terms of the type."""
    return _of_type("grammar", goal, _grammar)


def certify(goal: TypeLike) -> Query[Certificate]:
    """A certificate that some term has the type, or that none has."""
    return _of_type("certify", goal, _certificate)


def verify(goal: TypeLike, certificate: Certificate | str) -> Query[Verdict]:
    """Whether the certificate shows this of the type. If it is a text, its last line is `qed`, or `NoQed` is raised."""
    type = _type(goal)
    query = f"verify {type}"
    # A line that can't be read would open no certificate, and the lines behind it would be queries.
    piece = bytes_of(query)
    if len(piece) > MAX_LINE_BYTES:
        raise LineTooLong(query)
    if not can_be_read(piece):
        raise NotUtf8(query)
    lines = certificate.rstrip("\n").split("\n") if isinstance(certificate, str) else certificate.lines()
    ends = [number for number, line in enumerate(lines) if line.strip(" \t\r") == "qed"]
    if not ends:
        raise NoQed(query)
    if ends[0] != len(lines) - 1:
        raise ValueError("lines stand behind the end of the certificate")
    return Query((query, *lines), _verdict, (type,), tuple(_type_of(line) for line in lines if line.strip()))


def add(component: str, type: TypeLike) -> Query[None]:
    """Adds a component behind the others. Its template is its name, and its cost is 1."""
    name, added = _component(component), _type(type)
    return Query((f"add {name} : {added}",), _added, (added,), added=name)


def drop(component: str) -> Query[None]:
    """Takes out a component, with its template, its cost, and what filters say of it."""
    name = _component(component)
    return Query((f"drop {name}",), _dropped, dropped=name)


def sizes(goal: TypeLike) -> Query[Sizes]:
    """How large the terms of the type are. All terms count, also those that are too long for a page."""
    return _of_type("finite", goal, _sizes)


def history(goal: TypeLike) -> Query[list[Event]]:
    """Which worker claimed and filed which row of the closure. It may differ from run to run."""
    return _of_type("audit", goal, _history)


def _listing(
    word: str, goal: TypeLike, take: int, max_size: int, after: TermLike | None, read: Callable[[str, Reader], Answer],
) -> Query[Answer]:
    type, terms = _type(goal), () if after is None else (_term(after),)
    line = " ".join([f"{word} {type} max {max_size} take {take}", *(f"after {term}" for term in terms)])
    is_in_range = 1 <= max_size <= MAX_SIZE and 1 <= take <= MAX_TAKE
    return Query((line,), read, (type,) if is_in_range else (), terms=terms)


def _of_type(word: str, goal: TypeLike, read: Callable[[str, Reader], Answer]) -> Query[Answer]:
    type = _type(goal)
    return Query((f"{word} {type}",), read, (type,))


def _type(goal: TypeLike) -> str:
    if not isinstance(goal, str | Type):
        raise TypeError(f"{goal!r} is no type")
    return str(goal)


def _term(term: TermLike) -> str:
    if not isinstance(term, str | Term):
        raise TypeError(f"{term!r} is no term")
    return str(term)


def _component(name: str) -> str:
    if not isinstance(name, str):
        raise TypeError(f"{name!r} is no name of a component")
    return name.strip(" \t\r")


def _type_of(line: str) -> str:
    """The type in a line of a certificate, which is empty if it has none."""
    word, *rest = line.split(None, 1)
    if word == "member":
        return rest[0] if rest else ""
    if word == "row" and rest:
        words = rest[0].rpartition(":")[0].rsplit(None, 3)
        return words[0] if words else ""
    return ""


def _up_to(last: str, first: str, reader: Reader) -> Iterator[str]:
    """The lines of a reply without its last one."""
    line = first
    while line != last:
        yield line
        line = reader.line()


def _is_yes(first: str, reader: Reader) -> bool:
    return ("no", "yes").index(first) == 1


def _is_inhabited(first: str, reader: Reader) -> bool:
    return ("uninhabited", "inhabited").index(first) == 1


def _verdicts(first: str, reader: Reader) -> list[bool]:
    return [_is_inhabited(line, reader) for line in _up_to("done", first, reader)]


def _added(first: str, reader: Reader) -> None:
    ("added",).index(first)


def _dropped(first: str, reader: Reader) -> None:
    ("dropped",).index(first)


def _paths(first: str, reader: Reader) -> list[str]:
    return [line.partition(" ")[2] for line in _up_to("done", first, reader)]


def _page(first: str, reader: Reader) -> Page[Term]:
    terms, line = [], first
    while line not in ("more", "done"):
        terms.append(Term.parse(line.removeprefix("term ")))
        line = reader.line()
    return Page(terms, line == "more")


def _text_page(first: str, reader: Reader) -> Page[TermText]:
    entries, line = [], first
    while line not in ("more", "done"):
        head = reader.line()
        text = None if head == "long" else reader.text(int(head.removeprefix("text ")))
        entries.append(TermText(Term.parse(line.removeprefix("term ")), text))
        line = reader.line()
    return Page(entries, line == "more")


def _grammar(first: str, reader: Reader) -> Grammar:
    return parse_grammar(_up_to("done", first, reader))


def _certificate(first: str, reader: Reader) -> Certificate:
    return parse_certificate(_up_to("qed", first, reader))


def _verdict(first: str, reader: Reader) -> Verdict:
    word, *told = first.split(" ")
    return Verdict(True) if ("refused", "accepted").index(word) else Verdict(False, int(told[0]), told[1])


def _sizes(first: str, reader: Reader) -> Sizes:
    if first != "infinite":
        told = first.removeprefix("finite ")
        return Sizes(None if told == "over" else int(told))
    steps = (line.split(" ") for line in _up_to("done", reader.line(), reader))
    return Sizes(None, tuple(Step(int(goal), int(rule), int(place)) for _, goal, _, rule, _, place in steps))


def _history(first: str, reader: Reader) -> list[Event]:
    events = (line.split(" ") for line in _up_to("done", first, reader))
    return [Event(kind, int(worker), int(row)) for kind, worker, row in events]
