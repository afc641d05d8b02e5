"""What is said about a fault beside its sentence, as far as it depends on the line and on the repository: what could stand there, which name
may be meant, and which other lines it has to do with."""

from __future__ import annotations

from collections.abc import Callable, Collection, Iterator
from dataclasses import dataclass
from functools import cached_property

from clsynth.declarations import Declared
from clsynth.diagnostics import one_of
from clsynth.explanations import Detail, Explanation
from clsynth.forms import CERTIFICATE, QUERIES, REPOSITORY, Misfit, first_words, forms_of, misfit
from clsynth.limits import MAX_NAME_BYTES, MAX_SIZE, MAX_TAKE
from clsynth.similar import closest
from clsynth.tokens import Token, character_of, tokens_of
from clsynth.transcripts import Fault, Input

__all__ = ["Case"]

_MARK = "\ufeff"


@dataclass(frozen=True)
class Case:
    """A fault with the line at which it is."""

    given: Input
    number: int
    """The number of the line in the input, counted from 1."""
    line: str
    fault: Fault
    explanation: Explanation
    forms: tuple[str, ...]
    """Those that may stand in this part of the input."""

    @cached_property
    def tokens(self) -> list[Token]:
        """The tokens of the line."""
        return tokens_of(self.line)

    @property
    def declared(self) -> Declared:
        """What the repository declares."""
        return self.given.declared

    @cached_property
    def misfit(self) -> Misfit | None:
        """Where the line fits none of the forms with its first word."""
        return misfit(self.line, forms_of(self.line, self.forms))

    @property
    def place(self) -> int | None:
        """The character of the line of which the fault is said, if it is one."""
        word, detail = self.fault.word, self.fault.detail
        if self.explanation.detail is Detail.BYTE and detail.isdigit():
            return character_of(self.line, int(detail))
        if word in _PLACES:
            return _PLACES[word](self)
        if self.explanation.detail is Detail.NAME:
            return next((token.place for token in self.tokens[1:] if token.text == detail), None)
        return None

    def notes(self) -> list[str]:
        """What is said beside the sentence."""
        return [note for note in (*_NOTES.get(self.fault.word, _nothing)(self), self._remedy()) if note]

    def _remedy(self) -> str:
        remedy = self.explanation.remedy
        return remedy.replace("{}", self.fault.detail) if self.explanation.detail is Detail.NAME else remedy


def _nothing(case: Case) -> Iterator[str]:
    yield from ()


def _directive(case: Case) -> Iterator[str]:
    word = case.tokens[0].text if case.tokens else ""
    if case.line.startswith(_MARK):
        yield "The file begins with a byte order mark. Save it as UTF-8 without one."
    elif word in first_words(QUERIES):
        yield f"`{word}` begins a query. Put the line `end` before the first query."
    else:
        yield from _first_words(word, case.forms)


def _first_words(word: str, forms: tuple[str, ...]) -> Iterator[str]:
    words = first_words(forms)
    yield _meant(word, words)
    yield f"A line here begins with {one_of([f'`{it}`' for it in words])}."


def _syntax(case: Case) -> Iterator[str]:
    first = case.tokens[0].text if case.tokens else ""
    forms = forms_of(case.line, case.forms)
    if not forms and case.forms == QUERIES and first in first_words(REPOSITORY):
        yield f"`{first}` begins a line of the repository. Put it before the line `end`."
    elif not forms:
        yield from _first_words(first, case.forms)
    elif case.misfit:
        yield f"Here may stand {one_of(case.misfit.wanted)}."
        yield _of_token(case, case.misfit)
        yield f"The line has the form {one_of([f'`{form}`' for form in forms])}."


def _of_token(case: Case, found: Misfit) -> str:
    """What is said of the token that doesn't fit."""
    text = found.token.text if found.token else ""
    if found.token and found.token.kind == "bad" and text not in "#{}":
        if len(text) > MAX_NAME_BYTES:
            return f"A name has at most {MAX_NAME_BYTES} bytes, and this one has {len(text)}."
        return "A name has letters of ASCII, digits and `_`, and begins with no digit."
    if found.token and found.token.kind == "number" and case.tokens[case.tokens.index(found.token) - 1].text == "max":
        return "The type before `max` isn't complete, so that `max` is a constructor in it."
    return _OF_SIGNS.get((case.forms == REPOSITORY, text), _OF_SIGNS.get((None, text), ""))


_OF_SIGNS: dict[tuple[bool | None, str], str] = {
    (None, "#"): "A comment has a line to itself.",
    (None, ","): "A constructor has one argument. Two are a product: `Map(A * B)`.",
    (None, "|"): "A single bar stands between the types of a `kind` line alone.",
    (True, "<="): "Before `end` it is `sub A B`. Behind `end` it is the query `sub A <= B`.",
}
"""What is said of a sign, by whether it stands in the repository. None says that it doesn't matter."""


def _certificate(case: Case) -> Iterator[str]:
    first = case.tokens[0].text if case.tokens else ""
    if first in first_words(QUERIES):
        yield f"`{first}` begins a query. Put the line `qed` before it, behind the certificate."
    elif not forms_of(case.line, CERTIFICATE):
        yield from _first_words(first, CERTIFICATE)
    elif case.misfit:
        yield from _syntax(case)


def _meant(name: str, names: Collection[str]) -> str:
    found = closest(name, names)
    return f"Did you mean `{found}`?" if found else ""


def _unknown(case: Case) -> Iterator[str]:
    place = case.place
    name = next((token.text for token in case.tokens if token.place == place), case.fault.detail)
    names = case.declared.filters if _is_of_filter(case) else case.declared.components
    declared = names.get(name)
    if declared is not None and case.forms == QUERIES:
        yield f"It is declared in line {declared}, and was dropped."
    elif declared is not None:
        yield f"It is declared later, in line {declared}."
    else:
        yield _meant(name, names)


def _is_of_filter(case: Case) -> bool:
    """Whether the name that nothing has is to name a filter."""
    first = case.tokens[0].text if case.tokens else ""
    return case.fault.word == "unknown-filter" or (case.fault.word == "unknown" and first == "filtered")


def _first_declared(names: Callable[[Declared], dict[str, int]]) -> Callable[[Case], Iterator[str]]:
    def notes(case: Case) -> Iterator[str]:
        line = names(case.declared).get(case.fault.detail)
        if line is not None:
            yield f"Line {line} says it first."
    return notes


def _cycle(case: Case) -> Iterator[str]:
    for lower, upper, line in case.declared.cycle(case.fault.detail):
        yield f"Line {line} says that `{lower}` is below `{upper}`."


def _variance_mix(case: Case) -> Iterator[str]:
    words = {name: word for name, (_, word) in case.declared.variances.items()}
    for lower, upper, line in case.declared.below:
        ways = [words.get(name, "") for name in (lower, upper)]
        if ways[0] != ways[1]:
            said = [f"`{name}` is {_VARIANCES[way]}" for name, way in zip((lower, upper), ways)]
            yield f"Line {line} says that `{lower}` is below `{upper}`. {said[0]}, and {said[1]}."
            return


_VARIANCES = {"": "covariant", "contra": "contravariant", "inv": "invariant"}


def _variable(case: Case) -> Iterator[str]:
    yield _meant(case.fault.detail, case.declared.kinds)


def _place_of_variable(case: Case) -> int | None:
    pairs = zip(case.tokens, case.tokens[1:])
    return next((sign.place for sign, name in pairs if sign.text == "$" and name.text == case.fault.detail), None)


def _place_of_number(case: Case) -> int | None:
    """The first number behind `max` or `take` that is out of its range."""
    for word, number in zip(case.tokens, case.tokens[1:]):
        greatest = {"max": MAX_SIZE, "take": MAX_TAKE}.get(word.text)
        if greatest and number.kind == "number" and not _is_in_range(number.text, greatest):
            return number.place
    return None


def _is_in_range(digits: str, greatest: int) -> bool:
    short = digits.lstrip("0")
    return 0 < len(short) <= len(str(greatest)) and int(short) <= greatest


def _last_place(case: Case) -> int | None:
    return case.tokens[-1].place if case.tokens else None


_PLACES: dict[str, Callable[[Case], int | None]] = {
    "directive": lambda case: case.tokens[0].place if case.tokens else None,
    "variable": _place_of_variable,
    "number": _place_of_number,
    "cost": _last_place,
    "certificate": lambda case: case.misfit.place if case.misfit else None,
}
"""Where a fault is whose words don't say a byte of the line, by its word."""

_NOTES: dict[str, Callable[[Case], Iterator[str]]] = {
    "directive": _directive,
    "syntax": _syntax,
    "reserved": _syntax,
    "certificate": _certificate,
    "unknown": _unknown,
    "token": _unknown,
    "unknown-component": _unknown,
    "unknown-filter": _unknown,
    "duplicate-component": _first_declared(lambda declared: declared.components),
    "duplicate-kind": _first_declared(lambda declared: declared.kinds),
    "duplicate-filter": _first_declared(lambda declared: declared.filters),
    "duplicate-variance": _first_declared(lambda declared: {name: line for name, (line, _) in declared.variances.items()}),
    "cycle": _cycle,
    "variance-mix": _variance_mix,
    "variable": _variable,
}
"""What is said of a fault, by its word."""
