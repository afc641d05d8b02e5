"""What the lines of an input declare and ask, as far as lint looks at it."""

from __future__ import annotations

from collections import Counter
from dataclasses import dataclass
from functools import cached_property

from clsynth.coarse import Paths, TypeReader, Unreadable, words_of
from clsynth.forms import QUERIES, REPOSITORY, forms_of, misfit
from clsynth.limits import MAX_LINE_BYTES, MAX_PARENTHESES
from clsynth.orders import Order
from clsynth.tokens import BLANKS, byte_of, can_be_read, first_word, is_skipped, text_of
from clsynth.transcripts import Fault, Input

__all__ = ["Survey", "TypedLine"]

_GOALS = frozenset({"inhabit", "list", "texts", "grammar", "audit", "certify", "verify", "finite"})
"""The queries whose first word has a type behind it of which terms are wanted."""


@dataclass(frozen=True)
class TypedLine:
    """The type of a component or of a query, or one of the types of a kind. `word` is the first one of the line, and `name` what is
    declared."""

    word: str
    name: str
    line: int
    type: Paths


class Survey:
    """The declarations and the goals of an input, each with the number of its line. Lines at fault are told apart."""

    def __init__(self, given: Input) -> None:
        self.given = given
        self.components: list[TypedLine] = []
        self.kinds: dict[str, list[TypedLine]] = {}
        self.below: list[tuple[str, str, int]] = []
        """The constructors of each `sub` line, and its number."""
        self.variances: dict[str, tuple[str, int]] = {}
        """The word of each constructor's `variance` line, and its number."""
        self.goals: list[TypedLine] = []
        self.compared: list[TypedLine] = []
        """The types of queries that ask for no term."""
        self.counts: Counter[str] = Counter()
        """How often each name stands in a type."""
        self.faults: list[tuple[int, Fault]] = []
        self.has_queries = False
        for number, line in enumerate(given.repository, 1):
            if not is_skipped(line):
                self._take(number, line, is_query=False)
        for asked in given.queries():
            self.has_queries = True
            self._take(asked.line, asked.lines[0], is_query=True)

    @cached_property
    def order(self) -> Order:
        """The order of the constructors."""
        return Order((lower, upper) for lower, upper, _ in self.below)

    def _take(self, number: int, line: bytes, is_query: bool) -> None:
        text = text_of(line)
        words = words_of(text)
        try:
            if not can_be_read(line):
                raise Unreadable
            if is_query:
                self._ask(number, words, text)
            else:
                self._declare(number, words, TypeReader(words, 1))
        except Unreadable:
            self.faults.append((number, _fault(line, text, QUERIES if is_query else REPOSITORY)))

    def _declare(self, number: int, words: list[str], reader: TypeReader) -> None:
        match words[0]:
            case "comp":
                name = reader.name()
                reader.wants(":")
                self.components.append(TypedLine("comp", name, number, self._type(words, reader)))
            case "kind":
                self._declare_kind(number, words, reader)
            case "sub":
                self.below.append((reader.name(), reader.name(), number))
            case "variance":
                name, way = reader.name(), reader.name()
                if way not in ("contra", "inv"):
                    raise Unreadable
                self.variances.setdefault(name, (way, number))
            case "text":
                reader.name()
                reader.wants("=")
                return
            case "cost":
                reader.name()
                reader.number()
            case "filter":
                reader.name()
                reader.wants("accepts")
                _pass_state(reader)
                while words[reader.next]:
                    _pass_state(reader)
            case "leaf":
                reader.name()
                reader.name()
                reader.wants("->")
                _pass_state(reader, "none")
            case "app":
                reader.name()
                _pass_state(reader, "_")
                _pass_state(reader, "_")
                reader.wants("->")
                _pass_state(reader, "none")
            case "other":
                reader.name()
                _pass_state(reader)
            case "end":
                pass
            case _:
                raise Unreadable
        reader.wants("")

    def _declare_kind(self, number: int, words: list[str], reader: TypeReader) -> None:
        name = reader.name()
        reader.wants("=")
        kind = self.kinds.setdefault(name, [])
        is_open = bool(words[reader.next])
        while is_open:
            kind.append(TypedLine("kind", name, number, self._type(words, reader)))
            is_open = reader.takes("|")

    def _ask(self, number: int, words: list[str], text: str) -> None:
        some = forms_of(text, QUERIES)
        if not some or misfit(text, some) or _depth(text) > MAX_PARENTHESES:
            raise Unreadable
        word = words[0]
        if word in _GOALS:
            self.goals.append(TypedLine(word, "", number, self._type(words, TypeReader(words, 1))))
        elif word == "add":
            reader = TypeReader(words, 1)
            name = reader.name()
            reader.wants(":")
            self.components.append(TypedLine("comp", name, number, self._type(words, reader)))
        elif word == "batch":
            reader = TypeReader(words, 1)
            is_open = True
            while is_open:
                self.goals.append(TypedLine(word, "", number, self._type(words, reader)))
                is_open = reader.takes("|")
        elif word == "filtered":
            self.goals.append(TypedLine(word, "", number, self._type(words, TypeReader(words, 2))))
        elif word == "typed":
            self.goals.append(TypedLine(word, "", number, self._type(words, TypeReader(words, words.index(":") + 1))))
        elif word == "sub":
            reader = TypeReader(words, 1)
            self.compared.append(TypedLine(word, "", number, self._type(words, reader)))
            reader.wants("<=")
            self.compared.append(TypedLine(word, "", number, self._type(words, reader)))

    def _type(self, words: list[str], reader: TypeReader) -> Paths:
        start = reader.next
        made = reader.type()
        self.counts.update(words[start : reader.next])
        return made


def _pass_state(reader: TypeReader, also: str = "") -> None:
    """Passes the name of a state, or the word that may stand in its place."""
    name = reader.name()
    if name in ("none", "_") and name != also:
        raise Unreadable


def _fault(line: bytes, text: str, forms: tuple[str, ...]) -> Fault:
    """What is wrong with a line, in the words of the program."""
    if not can_be_read(line):
        return Fault("long" if len(line) > MAX_LINE_BYTES else "utf8")
    some = forms_of(text, forms)
    if not some and forms is REPOSITORY:
        return Fault("directive")
    if _depth(text) > MAX_PARENTHESES and first_word(line) != "text":
        return Fault("deep")
    found = misfit(text, some) if some else None
    place = found.place if found else len(text) - len(text.lstrip(BLANKS))
    return Fault("reserved" if found and found.is_reserved else "syntax", str(byte_of(text, place)))


def _depth(text: str) -> int:
    """How many parentheses are open at once."""
    depth = greatest = 0
    for character in text if text.count("(") > MAX_PARENTHESES else "":
        if character == "(":
            depth += 1
            greatest = max(greatest, depth)
        elif character == ")":
            depth = max(0, depth - 1)
    return greatest
