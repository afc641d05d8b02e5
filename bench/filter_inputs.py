"""Repositories and filters for pages of the terms that a filter accepts. bench/filtered.py times such pages, and bench/limits.py has those
that reach a limit."""

from __future__ import annotations

import hostile_inputs as make

STATES = 16

# Functions over numbers, texts and lists. What lists are besides, as Asc and Desc, most of them keep.
LIBRARY = """sub Nat Int
kind a = Int | Str
kind b = Int | Str
comp numbers : List(Int)
comp words : List(Str)
comp sort : List($a) -> List($a) & Asc
comp reverse : (List($a) -> List($a)) & (Asc -> Desc) & (Desc -> Asc)
comp dedup : (List($a) -> List($a)) & (Asc -> Asc) & (Desc -> Desc)
comp rest : (List($a) -> List($a)) & (Asc -> Asc) & (Desc -> Desc)
comp take : Nat -> (List($a) -> List($a)) & (Asc -> Asc) & (Desc -> Desc)
comp skip : Nat -> (List($a) -> List($a)) & (Asc -> Asc) & (Desc -> Desc)
comp map : ($a -> $b) -> List($a) -> List($b)
comp keep : ($a -> Bool) -> (List($a) -> List($a)) & (Asc -> Asc) & (Desc -> Desc)
comp fold : ($b -> $a -> $b) -> $b -> List($a) -> $b
comp append : List($a) -> List($a) -> List($a)
comp length : List($a) -> Nat
comp first : List($a) -> $a
comp last : List($a) -> $a
comp is_empty : List($a) -> Bool
comp zero : Nat
comp one : Nat
comp next : Int -> Int
comp negative : Int -> Int
comp plus : Int -> Int -> Int
comp times : Int -> Int -> Int
comp greater : Int -> Int -> Int
comp total : List(Int) -> Int
comp is_even : Int -> Bool
comp is_less : Int -> Int -> Bool
comp not : Bool -> Bool
comp both : Bool -> Bool -> Bool
comp shown : Int -> Str
comp parsed : Str -> Int
comp upper : Str -> Str
comp trimmed : Str -> Str
comp joined : Str -> Str -> Str
comp blank : Str
comp split : Str -> List(Str)
comp size : Str -> Nat
"""


def in_parts(name: str, types: list[str], count: int) -> str:
    """Components of so many of the types each."""
    parts = [types[place : place + count] for place in range(0, len(types), count)]
    return "".join(f"comp {name}{place} : {make.meet(part)}\n" for place, part in enumerate(parts))


def tree(goals: int) -> str:
    """A tree of goals, C0 at its root: each has a rule over each of its two children and one over both, and a leaf a component alone."""
    inner = range((goals - 1) // 2)
    left = [f"(C{2 * goal + 1} -> C{goal})" for goal in inner]
    right = [f"(C{2 * goal + 2} -> C{goal})" for goal in inner]
    both = [f"(C{2 * goal + 1} -> C{2 * goal + 2} -> C{goal})" for goal in inner]
    leaves = [f"C{goal}" for goal in range(len(inner), goals)]
    return in_parts("f", left, 100) + in_parts("g", right, 100) + in_parts("h", both, 100) + in_parts("x", leaves, 100)


def filter_over(repository: str, states: int = STATES, name: str = "F") -> str:
    """The lines of a filter whose first state is accepting. The states of components go round, and each pair of states leads to a state."""
    components = [line.split()[1] for line in repository.splitlines() if line.startswith("comp ")]
    leaves = [f"leaf {name} {component} -> Q{place % states}" for place, component in enumerate(components)]
    apps = [
        f"app {name} Q{left} Q{right} -> Q{(3 * left + 5 * right + 1) % states}" for left in range(states) for right in range(states)
    ]
    return "\n".join([f"filter {name} accepts Q0", *leaves, *apps]) + "\n"


def many_filters(leaf: bool) -> str:
    """As many filters as an input may have, over 1,000 components. With `leaf`, each of them has a line of the last component."""
    repository = "".join(f"comp c{number} : A\n" for number in range(1_000))
    more = "\nleaf F{0:x} c999 -> q" if leaf else ""
    return make.filled(repository, lambda number: f"filter F{number:x} accepts q{more.format(number)}", "end\n")
