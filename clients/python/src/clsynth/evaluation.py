"""Running terms with functions of Python.

    evaluate(Term.parse("rev(sort(input))"), {"input": [3, 1, 2], "sort": sorted, "rev": lambda it: it[::-1]})     # [3, 2, 1]

How a component is applied to its arguments:

- Without arguments it is what the table has for it, also where that is a function.
- A function with n positional parameters is called with its first n arguments at once, and what it returns is applied to the others in
  the same way. Parameters with a default are used if there are arguments for them.
- Where there are fewer arguments than it needs, the result is a function that waits for the others, one at a time or several at once.
- Where Python can't tell how many it takes (some of the functions of C, and those with `*arguments`), it is called with all at once.
  `curry` says how many.
"""

from __future__ import annotations

import inspect
from collections.abc import Callable, Mapping
from typing import Any

from clsynth.errors import MissingFunction
from clsynth.terms import Term, TermLike, as_term

__all__ = ["Curried", "Functions", "curry", "evaluate"]


class Curried:
    """A function that takes so many arguments, one at a time or several at once. `curry` makes one."""

    def __init__(self, function: Callable[..., Any], count: int, given: tuple[object, ...] = ()) -> None:
        self._function = function
        self._count = count
        self._given = given

    def __call__(self, *arguments: object) -> Any:
        given = (*self._given, *arguments)
        if len(given) < self._count:
            return Curried(self._function, self._count, given)
        return apply(self._function(*given[: self._count]), given[self._count :])

    def __repr__(self) -> str:
        return f"<{self._function!r} with {len(self._given)} of {self._count} arguments>"


def curry(function: Callable[..., Any], count: int) -> Curried:
    """The function as one that takes so many arguments, one at a time or several at once. There is at least one."""
    if count < 1:
        raise ValueError(f"a function takes at least one argument, and not {count}")
    return Curried(function, count)


def apply(function: Any, arguments: tuple[object, ...]) -> Any:
    """What the function makes of the arguments, by the rules of this module."""
    return _Applied(function)(arguments) if arguments else function


def evaluate(term: TermLike, functions: Mapping[str, object]) -> Any:
    """What the term comes to, by these values and functions for its components. Each occurrence is run anew, arguments first and from
    left to right. If the table lacks a component, `MissingFunction` is raised before anything runs."""
    return Functions(functions).evaluate(as_term(term))


class Functions:
    """A table of values and functions for components, by which many terms are run."""

    def __init__(self, functions: Mapping[str, object]) -> None:
        self._functions = dict(functions)
        self._applied: dict[str, _Applied] = {}

    def evaluate(self, term: Term) -> Any:
        """As the function `evaluate` does."""
        spine = list(term.spine())
        missing = dict.fromkeys(component for component, _ in spine if component not in self._functions)
        if missing:
            raise MissingFunction(missing)
        return self._run(term)

    def _run(self, term: Term) -> Any:
        # A term waits until its arguments have come to values, the last of which is the last one made.
        values: list[object] = []
        waiting: list[tuple[Term, bool]] = [(term, False)]
        while waiting:
            current, is_ready = waiting.pop()
            count = len(current.arguments)
            if not count:
                values.append(self._functions[current.component])
            elif not is_ready:
                waiting.append((current, True))
                waiting.extend((argument, False) for argument in reversed(current.arguments))
            else:
                arguments = tuple(values[-count:])
                del values[-count:]
                values.append(self._of(current.component)(arguments))
        return values[0]

    def _of(self, component: str) -> _Applied:
        if component not in self._applied:
            self._applied[component] = _Applied(self._functions[component])
        return self._applied[component]


class _Applied:
    """A function that is applied to arguments as this module says."""

    def __init__(self, function: Any) -> None:
        self._function = function
        self._least, self._most = _parameters(function)

    def __call__(self, arguments: tuple[object, ...]) -> Any:
        if len(arguments) < self._least:
            return Curried(self._function, self._least, arguments)
        most = len(arguments) if self._most is None else self._most
        return apply(self._function(*arguments[:most]), arguments[most:])


def _parameters(function: Any) -> tuple[int, int | None]:
    """How many positional parameters it needs and has at most, which is None if it isn't known. At least one is taken at a time."""
    if isinstance(function, Curried):
        return 1, None
    try:
        parameters = inspect.signature(function).parameters.values()
    except (TypeError, ValueError):
        return 1, None
    kinds = [it.kind for it in parameters]
    places = [it for it in parameters if it.kind in (it.POSITIONAL_ONLY, it.POSITIONAL_OR_KEYWORD)]
    least = sum(it.default is it.empty for it in places)
    return max(1, least), None if inspect.Parameter.VAR_POSITIONAL in kinds else max(1, len(places))
