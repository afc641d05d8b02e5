"""Types, terms, orders of names and grammars that are as deep as may be. tools/check-faults runs them with a small stack too."""

from __future__ import annotations

from collections.abc import Iterator

from row import REFUSED, Row

NAMES = 20_000
GOALS = 4_999
MAX_PARENTHESES = 64
MAX_LENGTH = 64

# Each has at most 1,024 nodes: a bare name has two, and each sign one more than its parts.
DEEP_TYPES = {
    "arrows": " -> ".join("A" * 341),
    "names_in_an_intersection": " & ".join(f"A{number}" for number in range(341)),
    "arrows_between_omegas": " -> ".join(["omega"] * 511 + ["A"]),
    "names_over_names": "c(" * MAX_PARENTHESES + "A" + ")" * MAX_PARENTHESES,
    "sources_of_sources": "(" * MAX_PARENTHESES + "A" + " -> A)" * MAX_PARENTHESES + " -> A",
}


def rows() -> Iterator[Row]:
    yield from deep_types()
    yield from deep_terms()
    yield from deep_orders()
    yield deep_grammar()


def row(name: str, given: str, wanted: str, status: int = 0) -> Row:
    return Row(f"deep/{name}", given.encode(), wanted.encode(), status)


def deep_types() -> Iterator[Row]:
    """No component has such a type, and each is below itself."""
    for name, type in DEEP_TYPES.items():
        given = f"comp x : B\nend\nsub {type} <= {type}\ninhabit {type}\ntyped x : {type}\ncertify {type}\n"
        yield row(name, given, f"yes\nuninhabited\nno\nempty\nmember {type}\nqed\n")
    product = " * ".join("A" * 170)
    yield row("products", f"variance R inv\nend\nsub {product} <= {product}\nsub R({product}) <= R({product} & omega)\n", "yes\nyes\n")


def deep_terms() -> Iterator[Row]:
    chain = [f"{'f(' * length}x{')' * length}" for length in range(MAX_LENGTH)]
    last, nested = f"max {MAX_LENGTH} take 1 after {chain[-2]}", f"{'f(' * MAX_PARENTHESES}x{')' * MAX_PARENTHESES}"
    given = f"comp x : A\ncomp f : A -> A\nend\nlist A {last}\ntexts A {last}\ntyped {nested} : A\ntyped {nested} : B\n"
    yield row("nested_terms", given, f"term {chain[-1]}\ndone\nterm {chain[-1]}\ntext {len(chain[-1])}\n{chain[-1]}\ndone\nyes\nno\n")
    many = f"x({','.join('x' * 32_000)})"
    yield row("term_of_32000_arguments", f"comp x : A\nend\ntyped {many} : omega\ntyped {many} : A\n", "yes\nno\n")


def deep_orders() -> Iterator[Row]:
    chain = [f"sub a{number} a{number + 1}\n" for number in range(NAMES)]
    queries = f"sub a0 <= a{NAMES}\nsub a{NAMES} <= a0\n"
    yield row("chain_of_names", f"{''.join(chain)}end\n{queries}", "yes\nno\n")
    yield row("chain_of_names_from_the_top", f"{''.join(reversed(chain))}end\n{queries}", "yes\nno\n")
    cycle = f"{''.join(chain)}sub a{NAMES} a0\nend\n"
    yield row("cycle_of_names", cycle, f"refused {NAMES + 2} cycle a0\n", REFUSED)


def deep_grammar() -> Row:
    """A chain of goals, each with one rule over the next one. The last one has a component, so the goals have one term each."""
    arrows = [f"(G{goal + 1} -> G{goal})" for goal in range(GOALS - 1)]
    comps = [f"comp f{place} : {' & '.join(arrows[place : place + 150])}\n" for place in range(0, len(arrows), 150)]
    given = f"{''.join(comps)}comp x : G{GOALS - 1}\nend\ninhabit G0\nfinite G0\nlist G0 max 1024 take 1\ngrammar G0\n"
    rules = [f"goal {goal} rank {GOALS - goal} G{goal}\nrule f{goal // 150 * 150} {goal + 1}\n" for goal in range(GOALS - 1)]
    grammar = f"grammar {GOALS} {GOALS}\n{''.join(rules)}goal {GOALS - 1} rank 1 G{GOALS - 1}\nrule x\ndone\n"
    return row("chain_of_goals", given, f"inhabited\nfinite {GOALS}\ndone\n{grammar}")
