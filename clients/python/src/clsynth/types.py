"""Types as values.

    Int, List, Asc = constructor("Int"), constructor("List"), constructor("Asc")
    a = var("a")
    assert str(List(a) >> (List(a) & Asc)) == "List($a) -> List($a) & Asc"
    assert List(Int) & Asc == Type.parse("List(Int) & Asc")

Python groups operators otherwise than the language. `*` binds most, then `>>`, then `&`, and `>>` groups to the left. Where an
expression would read as another type than it looks like, `AmbiguousType` is raised: for an arrow as the left side of `>>`, and for `&`
between an arrow and something else. Parentheses, or `arrow(A, B, C)` and `intersection(A, B)`, say what is meant.
"""

from __future__ import annotations

import re
from collections.abc import Iterator
from dataclasses import dataclass
from functools import reduce
from itertools import accumulate
from typing import Any, ClassVar

from clsynth.errors import AmbiguousType, ParseFault, TypeTooDeep
from clsynth.limits import MAX_PARENTHESES
from clsynth.names import check_name

__all__ = [
    "Arrow", "Constructor", "Intersection", "Omega", "Product", "Type", "TypeLike", "Variable", "arrow", "as_type", "constructor", "intersection",
    "omega", "product", "var",
]


def _name_of(type: Type) -> str:
    """The name of a constructor or a variable, and otherwise an empty text."""
    name: str = getattr(type, "name", "")
    return name


class Type:
    """A type. Two types are equal if they are written in the same way: `A & B` and `B & A` are different values of Python."""

    _hash: int
    _nodes: int

    form: ClassVar[str]
    strength: ClassVar[int]
    """How much its sign binds: 0 an arrow, 1 an intersection, 2 a product, 3 what needs no parentheses."""

    def __post_init__(self) -> None:
        name = _name_of(self)
        object.__setattr__(self, "_nodes", 1 + sum(part._nodes for part in self.parts))
        object.__setattr__(self, "_hash", hash((self.form, name, *[part._hash for part in self.parts])))

    @staticmethod
    def parse(text: str) -> Type:
        """The type that the text says, as docs/LANGUAGE.md has them. Raises `ParseFault`, `BadName` for a name of over 48 bytes, or
        `TypeTooDeep` for over 64 open parentheses."""
        return _Parser(text).whole()

    @property
    def parts(self) -> tuple[Type, ...]:
        """The types that it is made of."""
        return ()

    @property
    def nodes(self) -> int:
        """Its nodes, as the language counts them: a bare name has two."""
        return self._nodes

    def all_parts(self) -> Iterator[Type]:
        """The type itself, its parts, theirs and so on, in the order of the text, each as often as it occurs."""
        waiting: list[Type] = [self]
        while waiting:
            part = waiting.pop()
            yield part
            waiting.extend(reversed(part.parts))

    def constructors(self) -> Iterator[str]:
        """The names of its constructors from left to right, each as often as it occurs."""
        return (part.name for part in self.all_parts() if isinstance(part, Constructor))

    def variables(self) -> Iterator[str]:
        """The names of its variables from left to right, each as often as it occurs."""
        return (part.name for part in self.all_parts() if isinstance(part, Variable))

    def __rshift__(self, target: TypeLike) -> Arrow:
        if isinstance(self, Arrow):
            raise AmbiguousType("`A >> B >> C` is `(A >> B) >> C` in Python: write `arrow(A, B, C)` or `A >> (B >> C)`, and `arrow(A >> B, C)`")
        return Arrow(self, as_type(target))

    def __rrshift__(self, source: TypeLike) -> Arrow:
        return as_type(source) >> self

    def __and__(self, other: TypeLike) -> Intersection:
        right = as_type(other)
        if _is_of_arrows(self) != _is_of_arrows(right):
            raise AmbiguousType("`A >> B & C` is `(A >> B) & C` in Python: write `A >> (B & C)`, or `intersection(A >> B, C)`")
        return Intersection(self, right)

    def __rand__(self, other: TypeLike) -> Intersection:
        return as_type(other) & self

    def __mul__(self, other: TypeLike) -> Product:
        return Product(self, as_type(other))

    def __rmul__(self, other: TypeLike) -> Product:
        return as_type(other) * self

    def __eq__(self, other: object) -> bool:
        if self is other:
            return True
        if not isinstance(other, Type):
            return NotImplemented
        if self._hash != other._hash or self._nodes != other._nodes:
            return False
        return all(one == two for one, two in zip(_spine(self), _spine(other)))

    def __hash__(self) -> int:
        return self._hash

    def __str__(self) -> str:
        pieces: list[str] = []
        # A part stands at a place that wants a form of at least some strength.
        waiting: list[str | tuple[Type, int]] = [(self, 0)]
        while waiting:
            item = waiting.pop()
            if isinstance(item, str):
                pieces.append(item)
                continue
            part, wanted = item
            layout = part._layout()
            waiting.extend(reversed(layout if part.strength >= wanted else ["(", *layout, ")"]))
        return "".join(pieces)

    def __repr__(self) -> str:
        return f"Type.parse({str(self)!r})"

    def __reduce__(self) -> tuple[Any, ...]:
        return _of_spine, (list(_spine(self)),)

    def _layout(self) -> list[str | tuple[Type, int]]:
        """How it is written: texts, and parts with the least strength that stands there without parentheses."""
        raise NotImplementedError


@dataclass(frozen=True, eq=False, repr=False)
class Omega(Type):
    """The type of every term."""

    form: ClassVar[str] = "omega"
    strength: ClassVar[int] = 3

    def _layout(self) -> list[str | tuple[Type, int]]:
        return ["omega"]


omega = Omega()
"""The type of every term."""


@dataclass(frozen=True, eq=False, repr=False)
class Constructor(Type):
    """A constructor over a type. The bare name is the constructor over `omega`."""

    name: str
    argument: Type = omega

    form: ClassVar[str] = "constructor"
    strength: ClassVar[int] = 3

    def __post_init__(self) -> None:
        check_name(self.name)
        super().__post_init__()

    @property
    def parts(self) -> tuple[Type, ...]:
        return (self.argument,)

    def __call__(self, *arguments: TypeLike) -> Constructor:
        """The constructor over this type, or over the product of several."""
        if self.argument != omega:
            raise TypeError(f"{self} has its argument")
        return Constructor(self.name, product(*arguments))

    def _layout(self) -> list[str | tuple[Type, int]]:
        return [self.name] if self.argument == omega else [f"{self.name}(", (self.argument, 0), ")"]


@dataclass(frozen=True, eq=False, repr=False)
class Variable(Type):
    """A variable, which stands for the types of its kind."""

    name: str

    form: ClassVar[str] = "variable"
    strength: ClassVar[int] = 3

    def __post_init__(self) -> None:
        check_name(self.name)
        super().__post_init__()

    def _layout(self) -> list[str | tuple[Type, int]]:
        return [f"${self.name}"]


@dataclass(frozen=True, eq=False, repr=False)
class Arrow(Type):
    """The functions from the source to the target."""

    source: Type
    target: Type

    form: ClassVar[str] = "arrow"
    strength: ClassVar[int] = 0

    @property
    def parts(self) -> tuple[Type, ...]:
        return self.source, self.target

    def _layout(self) -> list[str | tuple[Type, int]]:
        return [(self.source, 1), " -> ", (self.target, 0)]


@dataclass(frozen=True, eq=False, repr=False)
class Intersection(Type):
    """What has both types."""

    left: Type
    right: Type

    form: ClassVar[str] = "intersection"
    strength: ClassVar[int] = 1

    @property
    def parts(self) -> tuple[Type, ...]:
        return self.left, self.right

    def _layout(self) -> list[str | tuple[Type, int]]:
        return [(self.left, 1), " & ", (self.right, 2)]


@dataclass(frozen=True, eq=False, repr=False)
class Product(Type):
    """The pairs of what has the one type and what has the other."""

    left: Type
    right: Type

    form: ClassVar[str] = "product"
    strength: ClassVar[int] = 2

    @property
    def parts(self) -> tuple[Type, ...]:
        return self.left, self.right

    def _layout(self) -> list[str | tuple[Type, int]]:
        return [(self.left, 2), " * ", (self.right, 3)]


TypeLike = Type | str
"""A type, or its text."""


def as_type(type: TypeLike) -> Type:
    """The type, which is read if it is a text."""
    if isinstance(type, str):
        return Type.parse(type)
    if not isinstance(type, Type):
        raise TypeError(f"{type!r} is no type")
    return type


def constructor(name: str) -> Constructor:
    """The constructor with this name. `List(Int)` is the constructor `List` over `Int`, and `Map(A, B)` is `Map(A * B)`."""
    return Constructor(name)


def var(name: str) -> Variable:
    """The variable with this name, without the `$`."""
    return Variable(name)


def arrow(first: TypeLike, *others: TypeLike) -> Type:
    """`arrow(A, B, C)` is `A -> B -> C`."""
    *sources, target = map(as_type, (first, *others))
    return reduce(lambda made, source: Arrow(source, made), reversed(sources), target)


def intersection(first: TypeLike, *others: TypeLike) -> Type:
    """`intersection(A, B, C)` is `A & B & C`."""
    return reduce(Intersection, map(as_type, others), as_type(first))


def product(first: TypeLike, *others: TypeLike) -> Type:
    """`product(A, B, C)` is `A * B * C`."""
    return reduce(Product, map(as_type, others), as_type(first))


def _is_of_arrows(type: Type) -> bool:
    """Whether the last part of an intersection is an arrow, and so each part."""
    while isinstance(type, Intersection):
        type = type.right
    return isinstance(type, Arrow)


def open_parentheses(text: str) -> int:
    """How many parentheses are open at once in the text, at most."""
    counts = accumulate((sign == "(") - (sign == ")") for sign in text if sign in "()")
    return max(counts, default=0)


_CLASSES: tuple[type[Type], ...] = (Omega, Constructor, Variable, Arrow, Intersection, Product)
_FORMS = {it.form: it for it in _CLASSES}


def _spine(type: Type) -> Iterator[tuple[str, str]]:
    """The forms and names in the order of the text. They alone say which type it is."""
    return ((part.form, _name_of(part)) for part in type.all_parts())


def _of_spine(spine: list[tuple[str, str]]) -> Type:
    made: list[Type] = []
    for form, name in reversed(spine):
        names = (name,) if name else ()
        count = {"omega": 0, "variable": 0, "constructor": 1}.get(form, 2)
        parts = [made.pop() for _ in range(count)]
        made.append(_FORMS[form](*names, *parts))
    (type,) = made
    return type


_TOKEN = re.compile(r"[ \t\r]*(?:(?P<name>[A-Za-z_][A-Za-z0-9_]*)|(?P<sign>->|[&*()$])|(?P<bad>.))", re.ASCII | re.DOTALL)


class _Parser:
    """Reads a type from left to right. It calls itself for each parenthesis that is open, of which there are 64 at most."""

    def __init__(self, text: str) -> None:
        self._text = text
        self._tokens = [(it.start(it.lastgroup or 0), it[it.lastgroup or 0], it.lastgroup) for it in _TOKEN.finditer(text.rstrip(" \t\r"))]
        self._tokens.append((len(text), "", None))
        self._next = 0
        self._open = 0

    def whole(self) -> Type:
        type = self._arrows()
        if self._sign():
            raise self._fault("the end of the type")
        return type

    def _arrows(self) -> Type:
        parts = [self._intersections()]
        while self._takes("->"):
            parts.append(self._intersections())
        return arrow(*parts)

    def _intersections(self) -> Type:
        parts = [self._products()]
        while self._takes("&"):
            parts.append(self._products())
        return intersection(*parts)

    def _products(self) -> Type:
        parts = [self._atom()]
        while self._takes("*"):
            parts.append(self._atom())
        return product(*parts)

    def _atom(self) -> Type:
        if self._takes("("):
            return self._closed()
        if self._takes("$"):
            return Variable(self._name("a name"))
        name = self._name("a type")
        if name == "omega":
            return omega
        return Constructor(name, self._closed() if self._takes("(") else omega)

    def _closed(self) -> Type:
        """A type behind an open parenthesis."""
        self._open += 1
        if self._open > MAX_PARENTHESES:
            raise TypeTooDeep("the type", self._open, MAX_PARENTHESES)
        type = self._arrows()
        if not self._takes(")"):
            raise self._fault("`)` or a sign between types")
        self._open -= 1
        return type

    def _name(self, wanted: str) -> str:
        _, name, group = self._tokens[self._next]
        if group != "name":
            raise self._fault(wanted)
        self._next += 1
        return name

    def _sign(self) -> str:
        return self._tokens[self._next][1]

    def _takes(self, sign: str) -> bool:
        taken = self._sign() == sign
        self._next += taken
        return taken

    def _fault(self, wanted: str) -> ParseFault:
        return ParseFault(self._text, self._tokens[self._next][0], wanted)
