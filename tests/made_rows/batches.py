"""Batches of types over small repositories: all of some few types, by the rules, and the bounds that the union of their closures keeps."""

from __future__ import annotations

from collections.abc import Iterator
from itertools import product

from row import Row

# A goal is a name or `omega`, and a rule the list of its arguments. A component is its sources and its target.
Rules = list[tuple[str, ...]]

# C has a term by way of A and B. D and E need each other, and F needs one of them. Nothing leads to G.
COMPONENTS = {
    "x": ((), "A"),
    "f": (("A",), "A"),
    "g": (("A",), "B"),
    "h": (("B", "A"), "C"),
    "k": (("C", "D"), "E"),
    "l": (("E",), "D"),
    "m": (("D",), "F"),
}
TYPES = ("A", "B", "C", "D", "F", "G", "omega")
REPOSITORY = "".join(f"comp {name} : {' -> '.join((*sources, target))}\n" for name, (sources, target) in COMPONENTS.items()) + "end\n"


def rows() -> Iterator[Row]:
    asked = [types for count in (1, 2, 3) for types in product(TYPES, repeat=count)]
    yield Row("batches/all_of_at_most_three", text(asked), replies(asked))
    pairs = [types for count in (1, 2) for types in product(TYPES, repeat=count)]
    unions = [union(types) for types in pairs]
    for goals in range(1, max(map(len, unions)) + 2):
        wanted = replies(pairs, goals=goals)
        yield Row(f"batches/all_of_at_most_two_with_{goals}_goals", text(pairs), wanted, 0, ("--max-goals", str(goals)))
    for rules in range(1, max(map(rule_count, unions)) + 2):
        wanted = replies(pairs, rules=rules)
        yield Row(f"batches/all_of_at_most_two_with_{rules}_rules", text(pairs), wanted, 0, ("--max-rules", str(rules)))
    yield from many()


def many() -> Iterator[Row]:
    """Batches of as many types as there may be, and of more: types that are no goals of each other, and one type again and again."""
    for count in (63, 64, 65, 1_000):
        names = tuple(f"N{number}" for number in range(count))
        given = "".join(f"comp c{number} : N{number}\n" for number in range(0, 64, 2)) + "end\n"
        wanted = "".join(line(number % 2 == 0) for number in range(count)) + "done\n"
        yield Row(f"batches/{count}_types", (given + query(names)).encode(), (wanted if count <= 64 else "error number\n").encode())
        again = "inhabited\n" * count + "done\n" if count <= 64 else "error number\n"
        words = ("--max-goals", "1", "--max-rules", "2")
        yield Row(f"batches/one_type_{count}_times", f"comp x : A\ncomp f : A -> A\nend\n{query(('A',) * count)}".encode(), again.encode(), 0, words)


def text(asked: list[tuple[str, ...]]) -> bytes:
    return (REPOSITORY + "".join(map(query, asked))).encode()


def query(types: tuple[str, ...]) -> str:
    return f"batch {' | '.join(types)}\n"


def replies(asked: list[tuple[str, ...]], goals: int = 5_000, rules: int = 200_000) -> bytes:
    return "".join(reply(types, goals, rules) for types in asked).encode()


def reply(types: tuple[str, ...], goals: int, rules: int) -> str:
    found = union(types)
    if len(found) > goals or rule_count(found) > rules:
        return "error too-large\n"
    having = with_terms(found)
    return "".join(line(type in having) for type in types) + "done\n"


def line(is_inhabited: bool) -> str:
    return "inhabited\n" if is_inhabited else "uninhabited\n"


def union(types: tuple[str, ...]) -> dict[str, Rules]:
    """The goals that the types lead to, each with its rules."""
    found: dict[str, Rules] = {}
    waiting = list(types)
    while waiting:
        goal = waiting.pop()
        if goal not in found:
            found[goal] = rules_of(goal)
            waiting += [argument for rule in found[goal] for argument in rule]
    return found


def rules_of(goal: str) -> Rules:
    if goal == "omega":
        return [() for _ in COMPONENTS] + [("omega", "omega")]
    return [sources for sources, target in COMPONENTS.values() if target == goal]


def rule_count(found: dict[str, Rules]) -> int:
    return sum(map(len, found.values()))


def with_terms(found: dict[str, Rules]) -> set[str]:
    """The goals that have terms."""
    having: set[str] = set()
    while True:
        more = {goal for goal, rules in found.items() if any(having.issuperset(rule) for rule in rules)}
        if more == having:
            return having
        having = more
