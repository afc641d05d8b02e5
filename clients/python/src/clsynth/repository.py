"""A repository as an object, which is written as the program reads it.

    lists = Repository()
    a = lists.kind("a", ["Int", "Str"])
    lists.component("input", "List(Int)", call=[3, 1, 2])
    lists.component("sort", List(a) >> (List(a) & Asc), text="sorted({1})", call=sorted)
    print(lists)

What no repository can have is refused where it is declared, by a `RepositoryFault` that says what is allowed. The program tests the whole.
"""

from __future__ import annotations

from collections.abc import Iterable, Mapping
from dataclasses import dataclass, field
from types import MappingProxyType
from typing import Any, Literal

from clsynth.errors import (
    BadCost, DuplicateName, EmptyKind, KindTooLarge, RepositoryFault, RepositoryLineTooLong, RepositoryTooLong, TooManyComponents, TypeTooDeep,
    TypeTooLong, VariableInKind,
)
from clsynth.families import choices_of_kinds
from clsynth.filters import Filter
from clsynth.limits import MAX_CHOICES, MAX_COMPONENTS, MAX_COST, MAX_INPUT_BYTES, MAX_LINE_BYTES, MAX_NODES, MAX_PARENTHESES
from clsynth.names import check_name
from clsynth.reading import Directive, read_directives
from clsynth.templates import check_template
from clsynth.types import Type, TypeLike, Variable, as_type, intersection, open_parentheses

__all__ = ["Component", "Repository", "Types", "VarianceWord"]

Types = Iterable[TypeLike] | Mapping[Any, TypeLike]
"""Some types: in a list, or as the values of a dictionary."""

VarianceWord = Literal["contra", "inv"]


@dataclass(frozen=True)
class Component:
    """A component, as it was declared."""

    name: str
    type: Type
    cost: int = 1
    text: str | None = None
    call: object = field(default=None, compare=False)


class Repository:
    """Components with their types, and what is said of constructors and variables."""

    def __init__(self) -> None:
        self._lines: list[str] = []
        self._bytes = len("end\n")
        self._components: dict[str, Component] = {}
        self._kinds: dict[str, tuple[Type, ...]] = {}
        self._below: list[tuple[str, str]] = []
        self._variances: dict[str, VarianceWord] = {}
        self._filters: dict[str, Filter] = {}

    @staticmethod
    def parse(text: str) -> Repository:
        """The repository that a text says. Comments are lost. Raises `ParseFault`, or the fault of a declaration with a note of its line."""
        directives = list(read_directives(text))
        texts = {it.parts[0]: it.parts[1] for it in directives if it.word == "text"}
        costs = {it.parts[0]: int(it.parts[1]) for it in directives if it.word == "cost"}
        made = Repository()
        for directive in directives:
            with directive.noted():
                made._take(directive, texts, costs)
        return made

    def component(
        self, name: str, type: TypeLike | Types, *, cost: int | None = None, text: str | None = None, call: object = None,
    ) -> Component:
        """Declares a component with its type. One that is given several types has each of them: they are made the choices of a kind, or
        of several where they are many.

        `cost` is what it adds to the size of a term, from 1 to 255. `text` is its template. `call` is what `Session.values` takes for it:
        a function, or the value of a component that is applied to nothing.
        """
        check_name(name)
        if name in self._components:
            raise DuplicateName(f"the component {name!r} is declared already")
        if len(self._components) == MAX_COMPONENTS:
            raise TooManyComponents("the repository", MAX_COMPONENTS + 1, MAX_COMPONENTS)
        if cost is not None and not (isinstance(cost, int) and 1 <= cost <= MAX_COST):
            raise BadCost(f"the cost of {name!r} is {cost!r}, and may be a whole number from 1 to {MAX_COST}")
        what = f"the component {name!r}"
        kinds: dict[str, list[Type]] = {}
        if not isinstance(type, Type | str):
            kinds = self._kinds_for(name, what, _listed(type))
        declared = as_type(type) if isinstance(type, Type | str) else intersection(*map(Variable, kinds))
        lines = [*(_kind_line(kind, types) for kind, types in kinds.items()), f"comp {name} : {_checked(declared, what)}"]
        template = None if text is None else check_template(text)
        lines += [] if template is None else [f"text {name} = {template}"]
        lines += [] if cost is None else [f"cost {name} {cost:d}"]
        self._declare(lines)
        self._kinds.update((kind, tuple(types)) for kind, types in kinds.items())
        self._components[name] = Component(name, declared, 1 if cost is None else cost, template, call)
        return self._components[name]

    def kind(self, name: str, types: Types | str) -> Variable:
        """Declares the types that a variable stands for, or reads them from a text as `Int | Str`. The result is the variable."""
        check_name(name)
        if name in self._kinds:
            raise DuplicateName(f"the variable {name!r} has a kind already")
        what = f"the kind {name!r}"
        choices = [_without_variables(type, what) for type in _listed(types)]
        if not choices:
            raise EmptyKind(f"{what} has no type, and needs at least one")
        if len(choices) > MAX_CHOICES:
            raise KindTooLarge(what, len(choices), MAX_CHOICES)
        self._declare([_kind_line(name, choices)])
        self._kinds[name] = tuple(choices)
        return Variable(name)

    def below(self, lower: str | Type, upper: str | Type) -> None:
        """Declares that the first constructor is below the second."""
        names = _constructor_name(lower), _constructor_name(upper)
        self._declare([f"sub {names[0]} {names[1]}"])
        self._below.append(names)

    def variance(self, constructor: str | Type, variance: VarianceWord) -> None:
        """Declares that the constructor is contravariant (`contra`) or invariant (`inv`) in its argument. All others are covariant."""
        name = _constructor_name(constructor)
        if variance not in ("contra", "inv"):
            raise RepositoryFault(f"the variance of {name!r} is `contra` or `inv`, and not {variance!r}")
        if name in self._variances:
            raise DuplicateName(f"the variance of {name!r} is declared already")
        self._declare([f"variance {name} {variance}"])
        self._variances[name] = variance

    def filter(self, name: str, accepts: Iterable[str]) -> Filter:
        """Declares a filter with its accepting states, of which there is at least one. What is returned takes its other lines."""
        check_name(name)
        if name in self._filters:
            raise DuplicateName(f"the filter {name!r} is declared already")
        self._filters[name] = Filter(name, accepts, self._components, self._declare)
        return self._filters[name]

    @property
    def components(self) -> Mapping[str, Component]:
        """The components by their names, in the order of their declarations."""
        return MappingProxyType(self._components)

    @property
    def kinds(self) -> Mapping[str, tuple[Type, ...]]:
        """The kinds of the variables, by their names."""
        return MappingProxyType(self._kinds)

    @property
    def filters(self) -> Mapping[str, Filter]:
        """The filters by their names, in the order of their declarations."""
        return MappingProxyType(self._filters)

    @property
    def pairs_below(self) -> tuple[tuple[str, str], ...]:
        """The pairs of constructors of which the first was declared below the second."""
        return tuple(self._below)

    @property
    def variances(self) -> Mapping[str, VarianceWord]:
        """The variances that were declared, by the constructors."""
        return MappingProxyType(self._variances)

    @property
    def costs(self) -> dict[str, int]:
        """The cost of each component, as `Term.size` takes it."""
        return {name: component.cost for name, component in self._components.items()}

    @property
    def functions(self) -> dict[str, object]:
        """The `call` of each component that has one, as `evaluate` takes it."""
        return {name: component.call for name, component in self._components.items() if component.call is not None}

    def to_lines(self) -> list[str]:
        """The lines of the repository, in the order of the declarations. The last one is `end`."""
        return [*self._lines, "end"]

    def __str__(self) -> str:
        return "".join(f"{line}\n" for line in self.to_lines())

    def _take(self, directive: Directive, texts: Mapping[str, str], costs: Mapping[str, int]) -> None:
        """Declares what a line says. The texts and costs of all lines are declared with their components."""
        name, *rest = directive.parts
        match directive.word:
            case "comp":
                self.component(name, directive.type(), cost=costs.get(name), text=texts.get(name))
            case "kind":
                self.kind(name, directive.types())
            case "sub":
                self.below(name, rest[0])
            case "variance":
                self.variance(name, "contra" if rest[0] == "contra" else "inv")
            case "filter":
                self.filter(name, rest[0].split())
            case "leaf" | "app" | "other":
                self._take_line(directive.word, name, rest)
            case _ if name not in self._components:
                raise RepositoryFault(f"no component {name!r} is declared before its `{directive.word}` line")

    def _take_line(self, word: str, name: str, rest: list[str]) -> None:
        """Declares what a line says of a filter."""
        if name not in self._filters:
            raise RepositoryFault(f"no filter {name!r} is declared before its `{word}` line")
        match word:
            case "leaf":
                self._filters[name].leaf(rest[0], rest[1])
            case "app":
                self._filters[name].app(rest[0], rest[1], rest[2])
            case _:
                self._filters[name].other(rest[0])

    def _declare(self, lines: list[str]) -> None:
        """Takes lines that are right for themselves, all or none."""
        for line in lines:
            length = len(line.encode())
            if length > MAX_LINE_BYTES:
                raise RepositoryLineTooLong(f"the line `{line[:40]} ..`", length, MAX_LINE_BYTES)
        added = sum(len(line.encode()) + 1 for line in lines)
        if self._bytes + added > MAX_INPUT_BYTES:
            raise RepositoryTooLong("the repository", self._bytes + added, MAX_INPUT_BYTES)
        self._lines += lines
        self._bytes += added

    def _kinds_for(self, name: str, what: str, types: list[Type]) -> dict[str, list[Type]]:
        """Kinds for a component that has each of these types, by names that no other kind has."""
        if not types:
            raise EmptyKind(f"{what} has no type, and needs at least one")
        choices = choices_of_kinds(what, [_without_variables(type, what) for type in types])
        kinds: dict[str, list[Type]] = {}
        for number, some in enumerate(choices, 1):
            free = name if number == 1 else f"{name[:40]}_{number}"
            while free in self._kinds or free in kinds:
                number += 1
                free = f"{name[:40]}_{number}"
            kinds[free] = some
        return kinds


def _listed(types: Types | str) -> list[Type]:
    if isinstance(types, str):
        types = types.split("|")
    if not isinstance(types, Iterable):
        raise TypeError(f"{types!r} is no type, and not several")
    return [as_type(type) for type in (types.values() if isinstance(types, Mapping) else types)]


def _kind_line(name: str, types: Iterable[Type]) -> str:
    return f"kind {name} = {' | '.join(map(str, types))}"


def _checked(type: Type, what: str) -> Type:
    if type.nodes > MAX_NODES:
        raise TypeTooLong(f"a type of {what}", type.nodes, MAX_NODES)
    count = open_parentheses(str(type))
    if count > MAX_PARENTHESES:
        raise TypeTooDeep(f"a type of {what}", count, MAX_PARENTHESES)
    return type


def _without_variables(type: Type, what: str) -> Type:
    variable = next(type.variables(), None)
    if variable is not None:
        raise VariableInKind(f"the variable {variable!r} stands in a type of {what}: what a variable stands for has none")
    return _checked(type, what)


def _constructor_name(constructor: str | Type) -> str:
    return check_name(str(constructor))
