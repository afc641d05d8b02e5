"""Pages of what filters accept: over every filter of some few lines, by its definition, and where a filtered closure is too large."""

from __future__ import annotations

from collections.abc import Iterator
from dataclasses import dataclass
from functools import cache
from itertools import product

from row import Row

# A term is its component and its arguments.
Term = tuple["str | Term", ...]

COMPONENTS = ("x", "f")
REPOSITORY = "comp x : A\ncomp f : A -> A\n"
STATES = ("P", "Q")


def rows() -> Iterator[Row]:
    yield from (all_filters(accepting) for accepting in (("P",), ("P", "Q")))
    yield from limits()


@dataclass(frozen=True)
class Filter:
    """The lines of a filter: its accepting states, the state that a line gives each component, one `app` line, and an `other` line.
    A component without a line isn't there, and a line that isn't there is None."""

    accepting: tuple[str, ...]
    leaves: dict[str, str]
    app: tuple[str, str, str] | None
    other: str | None

    def lines(self, name: str) -> str:
        made = [f"filter {name} accepts {' '.join(self.accepting)}"]
        made += [f"leaf {name} {component} -> {state}" for component, state in self.leaves.items()]
        made += [f"app {name} {self.app[0]} {self.app[1]} -> {self.app[2]}"] if self.app else []
        made += [f"other {name} {self.other}"] if self.other else []
        return "".join(f"{line}\n" for line in made)

    def accepts(self, term: Term) -> bool:
        return self.state(term) in self.accepting

    def state(self, term: Term) -> str | None:
        """The state of the term, if it has one."""
        head, *arguments = term
        state = self.said(self.leaves.get(str(head)))
        for argument in arguments:
            state = self.joined(state, self.state(tuple(argument)))
        return state

    def joined(self, function: str | None, argument: str | None) -> str | None:
        """The state of an application, by those of its parts."""
        if function is None or argument is None:
            return None
        matches = self.app is not None and self.app[0] in ("_", function) and self.app[1] in ("_", argument)
        return self.said(self.app[2] if self.app and matches else None)

    def said(self, state: str | None) -> str | None:
        """The state that a line says, or that of what is left if there is no line."""
        if state is None:
            return self.other
        return None if state == "none" else state


def all_filters(accepting: tuple[str, ...]) -> Row:
    """Every filter with these accepting states, with or without a line for each component, an `app` line and an `other` line."""
    given, queries, wanted = REPOSITORY, "", ""
    for number, it in enumerate(filters(accepting)):
        given += it.lines(f"F{number}")
        queries += f"filtered F{number} omega max 3 take 5\nfiltered F{number} A max 4 take 2\n"
        wanted += page([term for term in all_terms(3) if it.accepts(term)], 5)
        wanted += page([term for term in chain(4) if it.accepts(term)], 2)
    return Row(f"filters/all_that_accept_{'_'.join(accepting)}", f"{given}end\n{queries}".encode(), wanted.encode())


def filters(accepting: tuple[str, ...]) -> Iterator[Filter]:
    states = (None, *STATES, "none")
    apps = [None, *product((*STATES, "_"), (*STATES, "_"), (*STATES, "none"))]
    for x, f, app, other in product(states, states, apps, (None, *STATES)):
        leaves = {component: state for component, state in zip(COMPONENTS, (x, f)) if state}
        yield Filter(accepting, leaves, app, other)


@cache
def all_terms(greatest: int) -> list[Term]:
    """All terms of at most so many occurrences: small ones first, those of one size by their codes."""
    return [term for size in range(1, greatest + 1) for term in sorted(terms_of(size), key=code)]


@cache
def terms_of(size: int) -> list[Term]:
    """The terms of the size: a component alone, or a term applied to one more argument."""
    if size == 1:
        return [(component,) for component in COMPONENTS]
    return [(*left, right) for part in range(1, size) for left in terms_of(part) for right in terms_of(size - part)]


def code(term: Term) -> list[int]:
    head, *arguments = term
    return [COMPONENTS.index(str(head)), len(arguments), *(number for it in arguments for number in code(tuple(it)))]


def chain(greatest: int) -> list[Term]:
    """The terms of the type `A` of at most so many occurrences."""
    made: list[Term] = [("x",)]
    while len(made) < greatest:
        made.append(("f", made[-1]))
    return made


def page(listed: list[Term], take: int) -> str:
    lines = [f"term {shown(term)}\n" for term in listed[:take]]
    return "".join(lines) + ("more\n" if len(listed) > take else "done\n")


def shown(term: Term) -> str:
    head, *arguments = term
    return f"{head}({', '.join(shown(tuple(it)) for it in arguments)})" if arguments else str(head)


# No `f` is applied to a term that begins with `f`. The closure has 3 rules, the node of N has 3, that of V has 1, the parts `f` and `g` have
# 1 each, and the start has the 4 of N and V: 10. Below size 3 these nodes have 2, 1, 1, 1 and 3 terms, and the start has 3 of size 3: 11.
ONCE = """\
comp x : A
comp f : A -> A
comp g : A -> A
filter once accepts {accepting}
leaf once f -> R
app once R V -> none
app once R _ -> V
other once N
end
filtered once A max 3 take 9
"""
SIX_TERMS = "term x\nterm f(x)\nterm g(x)\nterm f(g(x))\nterm g(f(x))\nterm g(g(x))\ndone\n"

# An even number of `f`. The start doesn't reach the node of the odd ones, nor the part, and they count all the same: the closure has 2
# rules, the node of N has 2, that of Q has 1, the part has 1, and the start has 2: 6. Below size 4 these nodes have 2, 1, 1 and 2 terms,
# and the start has none of size 4: 6.
EVEN = """\
comp x : A
comp f : A -> A
filter p accepts N
leaf p f -> G
leaf p x -> N
app p G N -> Q
app p G Q -> N
end
filtered p A max 4 take 9
"""
EVEN_TERMS = "term x\nterm f(f(x))\ndone\n"

# A function of two arguments. The closure has 4 rules. The node of A for E has 2, that of B for O has 1. The part `f` has 1, and `f` applied
# to a term of E has 1. No term has the type `Z`, so `u` has no part. The start has the 2 rules of A for E: 7. Below size 5 these nodes have
# 2, 1, 1, 2 and 2 terms, and the start has 1 of size 5: 9.
TWO = """\
comp x : A
comp y : B
comp f : A -> B -> A
comp u : Z -> A
filter two accepts E E
leaf two x -> E
leaf two y -> O
leaf two f -> F
app two F E -> H
app two F O -> none
app two H O -> E
app two H E -> O
end
filtered two A max 5 take 9
"""
TWO_TERMS = "term x\nterm f(x, y)\nterm f(f(x, y), y)\ndone\n"


def limits() -> Iterator[Row]:
    """Behind the name stand the rules of the closure, those of the filtered one, and how many terms count."""
    yield from bounded("once", ONCE.format(accepting="N V"), SIX_TERMS, 3, 10, 11)
    yield from bounded("once_named_twice", ONCE.format(accepting="N V N"), SIX_TERMS, 3, 10, 11)
    yield from bounded("even", EVEN, EVEN_TERMS, 2, 6, 6)
    yield from bounded("two_arguments", TWO, TWO_TERMS, 4, 7, 9)


def bounded(name: str, given: str, wanted: str, rules: int, filtered: int, pooled: int) -> Iterator[Row]:
    for limit in range(1, filtered + 2):
        reply = "error too-large\n" if limit < rules else "error filter-large\n" if limit < filtered else wanted
        yield Row(f"filters/{name}_with_{limit}_rules", given.encode(), reply.encode(), 0, ("--max-rules", str(limit)))
    for limit in range(1, pooled + 2):
        reply = "error too-many-terms\n" if limit < pooled else wanted
        yield Row(f"filters/{name}_with_a_pool_of_{limit}", given.encode(), reply.encode(), 0, ("--pool", str(limit)))
