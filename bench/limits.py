#!/usr/bin/env python3
"""Measures what an input costs that reaches a limit of the language or of an option, and prints it as tables of a document.

    bench/limits.py [PROGRAM] [--seconds N] [--only TEXT]

PROGRAM is crates/clsynth/out/clsynth, which tools/clsynth builds. Times are those of all processors together. A run that takes more than
N seconds is ended; its row says so. With --only, the inputs whose rows have TEXT in them are run.

The status is 1 if a run ends in another way than with status 0."""

from __future__ import annotations

import argparse
import random
import sys
from collections.abc import Callable, Iterator
from dataclasses import dataclass
from functools import partial
from pathlib import Path

import filter_inputs as filters
import hostile_inputs as make
from measured import Bounds, Run, measure

TOP = Path(__file__).resolve().parents[1]
ONE = "comp x : A\nend\n"


@dataclass(frozen=True)
class Input:
    """A row: the limit, the input that reaches it, and the words that it is run with."""

    limit: str
    what: str
    make: Callable[[], str]
    words: str = ""


# Lines


def random_pairs() -> str:
    chance = random.Random(5)

    def line(_: int) -> str:
        low, high = sorted(chance.sample(range(10_000), 2))
        return f"sub a{low:x} a{high:x}"

    return make.filled("", line, "end\n")


def long_names() -> str:
    """Queries over new names of 48 bytes."""
    return make.filled("end\n", lambda number: f"sub {f'a{number}'.ljust(48, 'x')} <= {f'b{number}'.ljust(48, 'x')}")


def comparison(low: str, high: str, front: str = "variance R inv\nend\n") -> str:
    return make.filled(front, f"sub {low} <= {high}")


def nested(inner: str) -> str:
    return f"{'R(' * 60}{inner}{')' * 60}"


def wide_comparison() -> str:
    arrows = [f"(A{number} -> B) -> C" for number in range(100)]
    return comparison(make.meet(f"({arrow})" for arrow in arrows), make.meet(f"({arrow})" for arrow in reversed(arrows)))


def spread() -> str:
    """A type of spread 13,119."""
    type = "A & B & C"
    for _ in range(7):
        type = f"({type}) -> A & B & C"
    return type


def of_lines() -> Iterator[Input]:
    size = "1 MiB of input"
    yield Input(size, "comments", lambda: make.filled("end\n", "#"))
    yield Input(size, "a line without end", lambda: "end\n" + "x" * (make.MAX_INPUT_BYTES - 4))
    yield Input(size, "`inhabit A`, 105,000 times", lambda: make.filled(ONE, "inhabit A"))
    yield Input(size, "`inhabit` of 75,000 types, each new", lambda: make.filled(ONE, lambda number: f"inhabit B{number:x}"))
    yield Input(size, "`sub` lines, 69,000 random pairs of 10,000 names", random_pairs)
    yield Input("names of 48 bytes", "`sub` of 20,000 new names, two a line, 1 MiB", long_names)
    yield Input("a number of 65,500 digits", "`list`, 1 MiB", lambda: make.filled(ONE, f"list A max {'0' * 65_499}1 take 1"))
    yield Input("64 parentheses", "`sub` of 60 invariant names, 1 MiB", lambda: comparison(nested("A & B"), nested("B & A")))
    yield Input("64 parentheses", "`typed` of 60 functions by 4,096 instances, 1 MiB", nested_terms)
    yield Input("1,024 nodes of a type", "`sub` of two times 100 arrows, 1 MiB", wide_comparison)
    yield Input("spread 16,384", "`sub` of types of spread 13,119, 1 MiB", lambda: comparison(spread(), spread()))
    both = f"R({spread()})", f"R(({spread()}) & omega)"
    yield Input("spread 16,384", "the same under an invariant name", lambda: comparison(*both))


# Repositories


def names_of_own_classes(components: int) -> str:
    return make.choice("a", make.numbered("n", 4_096)) + "".join(f"comp x{number} : $a\n" for number in range(components)) + "end\n"


def long_arrows(components: int) -> str:
    """4,096 instances of 32 arrows, which differ in the last source."""
    types = make.choice("a", make.numbered("n", 64)) + make.choice("b", make.numbered("m", 64))
    type = f"{make.arrows('A', 30, '$a -> $b -> Z')}"
    return types + "".join(f"comp x{number} : {type}\n" for number in range(components)) + "end\n"


def heavy_components(components: int) -> str:
    return "".join(f"comp x{number} : {spread()}\n" for number in range(components)) + "end\n"


def nested_terms() -> str:
    """Terms of 61 occurrences over functions between all of 64 names."""
    kinds = make.choice("a", make.numbered("n", 64)) + make.choice("b", make.numbered("n", 64))
    repository = f"{kinds}comp f : $a -> $b\ncomp x : {make.meet(make.numbered('n', 64))}\nend\n"
    return make.filled(repository, f"typed {'f(' * 60}x{')' * 60} : n0")


def of_repositories() -> Iterator[Input]:
    yield Input("1,000 components", "`list omega max 1 take 1000`", lambda: plain(1_000) + "list omega max 1 take 1000\n")
    yield Input("4,096 instances, 32 arrows", "1 component", lambda: long_arrows(1))
    yield Input("spread 16,384 of an instance", "76 components of spread 13,119", lambda: heavy_components(76))
    sum_limit = "1,000,000 in all instances"
    yield Input(sum_limit, "122 components of 4,096 names", lambda: names_of_own_classes(122))
    yield Input(sum_limit, "the same, all names below one", lambda: make.one_class(122))
    yield Input(sum_limit, "60 times 4,096 paths of one class", lambda: make.wrapped_class(60))
    yield Input(sum_limit, "244 components of 4,096 instances without paths", lambda: make.weightless_instances(244))


def plain(components: int) -> str:
    return "".join(f"comp c{number} : A\n" for number in range(components)) + "end\n"


# Closures


def goals_and_rules(components: int, query: str) -> str:
    return make.many_goals(components) + f"end\n{query} X\n"


def many_rules(components: int, arguments: int, query: str) -> str:
    return make.two_large_goals(components, arguments) + f"{query} X\n"


def of_goals() -> Iterator[Input]:
    yield Input("1,024 covers", "`inhabit`, 341 paths, 1 component", lambda: make.chained(1, "inhabit"))
    yield Input("1,024 covers", "the same, 10 components", lambda: make.chained(10, "inhabit"))
    yield Input("1,024 covers", "`certify` of it, 1 component", lambda: make.chained(1, "certify", "N -> "))
    for components, options in ((1, "--max-goals 1025"), (4, ""), (19, "--max-goals 20000")):
        goals = f"{1_024 * components + 1:,} goals"
        yield Input(goals, "`inhabit`", partial(goals_and_rules, components, "inhabit"), options)
        yield Input(goals, "of 341 long names, `inhabit`", partial(make.long_goals, "inhabit", components), options)
        yield Input(goals, "the same, `grammar`", partial(make.long_goals, "grammar", components), options)
        yield Input(goals, "the same, `certify`", partial(make.long_goals, "certify", components), options)
    yield Input("64 types of a batch", "they share 4,098 goals", make.shared_goals)
    yield Input("64 types of a batch", "the same, and the last has a wide goal", lambda: make.shared_goals(has_wide=True))
    yield Input("`error too-large`", "5,000 goals", lambda: make.too_large() + "inhabit X\n")
    yield Input("`error too-large`", "20,000 goals", lambda: make.too_large() + "inhabit X\n", "--max-goals 20000")


def of_rules() -> Iterator[Input]:
    words = "--max-rules 1000000"
    for components, options in ((19, "--max-rules 20000"), (194, ""), (750, words)):
        rules = f"{1_024 * components + 1:,} rules"
        yield Input(rules, "of 1 argument, `inhabit`", partial(many_rules, components, 1, "inhabit"), options)
        yield Input(rules, "of 32 arguments, `inhabit`", partial(many_rules, components, 32, "inhabit"), options)
        yield Input(rules, "the same, `grammar`", partial(many_rules, components, 32, "grammar"), options)
    turns = "inhabit X\ninhabit Y\n" * 10
    yield Input("204,801 rules", "of 32 arguments, two goals, 20 times in turn", lambda: make.two_large_goals(200) + turns, words)


# Pages, terms and certificates


def page(repository: str, type: str = "A") -> str:
    return f"{repository}end\nlist {type} max 1024 take 10000\n"


def wide_rule(argument: str) -> str:
    return f"comp f : {make.arrows('B', 32, 'A')}\ncomp x : B\ncomp y : {argument}\n"


def of_pages() -> Iterator[Input]:
    pool = "--pool 1000000"
    ten = plain(10).removesuffix("end\n")
    yield Input("max 1024, take 10000", "`list omega`, 10 components", lambda: page(ten, "omega"))
    yield Input("max 1024, take 10000", "a rule of 32 arguments", lambda: page(wide_rule("B -> B")))
    costs = "".join(f"cost {name} {cost}\n" for name, cost in (("x", 255), ("y", 254), ("f", 253), ("g", 251)))
    unary = f"comp x : A\ncomp y : A\ncomp f : A -> A -> A\ncomp g : A -> A\n{costs}"
    yield Input("cost 255", "four components with costs of 251 to 255", lambda: page(unary))
    yield Input("200,000 terms of the pool", "a rule of 32 arguments", lambda: page(wide_rule("B")))
    yield Input("1,000,000 terms of the pool", "the same", lambda: page(wide_rule("B")), pool)
    yield Input("65,536 bytes of a text", "10,000 texts of 65,000 bytes", lambda: make.long_texts(10_000))
    yield Input("holes of a template", "1,000 texts by templates of 21,000 holes", lambda: make.many_holes(1_000), pool)
    yield Input("holes of a template", "10,000 texts by the same", lambda: make.many_holes(10_000), pool)
    yield Input("32 arguments", "`typed`, 245,760 paths of one head", lambda: make.arguments_of_one_head(60))
    yield Input("32 arguments", "the same, ten queries", lambda: make.arguments_of_one_head(60, 10))
    yield Input("1 MiB of a certificate", "74,000 equal sets, 44,000 members", make.equal_sets)
    yield Input("1 MiB of a certificate", "50,000 sets that hold one of 70,000", make.equal_layers)
    yield Input("1 MiB of a certificate", "equal rows behind 14,000 others", make.equal_rows)
    yield Input("1 MiB of a certificate", "55,000 members of the head of 245,760 paths", lambda: make.members_of_one_head(60, 55_000))
    yield Input("64 workers", "19,457 goals, `inhabit`", lambda: goals_and_rules(19, "inhabit"), "--max-goals 20000 --workers 64")
    yield Input("`generate 300`", "", lambda: "", "generate 300")


# Filters


def filtered(repository: str, type: str) -> str:
    """A page of the terms that a filter of 16 states accepts."""
    return f"{repository}{filters.filter_over(repository)}end\nfiltered F {type} max 1024 take 10000\n"


def filtered_tree(goals: int) -> str:
    return filtered(filters.tree(goals), "C0")


def filtered_dense(names: int) -> str:
    return filtered(make.dense(names).removesuffix("end\n"), "n0")


def of_filters() -> Iterator[Input]:
    most = "--max-goals 20000 --max-rules 1000000 --pool 1000000"
    yield Input("16 states", "36 components, `omega`", lambda: filtered(filters.LIBRARY, "omega"), most)
    yield Input("16 states", "5,001 goals with rules of two arguments", partial(filtered_tree, 5_001), most)
    yield Input("16 states", "19,999 goals with rules of two arguments", partial(filtered_tree, 19_999), most)
    yield Input("1,000,000 rules", "57,188 rules of one argument, 974,170 with states", partial(filtered_dense, 29), most)
    yield Input("1,000,000 rules", "244,800 rules of one argument, `error filter-large`", partial(filtered_dense, 60), most)
    yield Input("1 MiB of input", "45,176 filters", partial(filters.many_filters, leaf=False))
    yield Input("1 MiB of input", "23,714 filters, each with a line of component 999", partial(filters.many_filters, leaf=True))


TABLES = {
    "Lines": of_lines,
    "Repositories": of_repositories,
    "Goals": of_goals,
    "Rules": of_rules,
    "Pages, terms and certificates": of_pages,
    "Filters": of_filters,
}


def row(it: Input, run: Run, seconds: int) -> str:
    what = ", ".join(part for part in (it.what, f"`{it.words}`" if it.words else "") if part)
    time = f"{run.seconds:.3f} s" if run.seconds < 1 else f"{run.seconds:.1f} s"
    if run.end.startswith("signal"):
        time = f"over {seconds} s"
    written = f"{run.written / 1e6:.1f} MB" if run.written >= 100_000 else f"{run.written} bytes"
    return f"| {it.limit} | {what} | {time} | {run.mebibytes:.0f} MiB | {written} |"


def measured(program: str, it: Input, seconds: int) -> bool:
    """Prints the row, and says whether the run ended with status 0 or was ended since it took too long."""
    run = measure(program, tuple(it.words.split()), it.make(), Bounds(seconds=seconds))
    print(row(it, run, seconds), flush=True)
    return run.end == "status 0" or run.end.startswith("signal")


def main() -> int:
    parser = argparse.ArgumentParser(description=__doc__, formatter_class=argparse.RawDescriptionHelpFormatter)
    parser.add_argument("program", nargs="?", default=str(TOP / "crates/clsynth/out/clsynth"))
    parser.add_argument("--seconds", type=int, default=60)
    parser.add_argument("--only", metavar="TEXT", default="")
    options = parser.parse_args()
    is_well = True
    for title, inputs in TABLES.items():
        chosen = [it for it in inputs() if options.only in f"{it.limit} {it.what}"]
        if chosen:
            print(f"\n## {title}\n\n| Limit | Input | Time | Memory | Written |\n|---|---|---|---|---|", flush=True)
        is_well = all([measured(options.program, it, options.seconds) for it in chosen]) and is_well
    return 0 if is_well else 1


if __name__ == "__main__":
    sys.exit(main())
