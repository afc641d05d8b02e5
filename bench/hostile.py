#!/usr/bin/env python3
"""Runs the program on inputs that were found to take long, or much memory, and compares what it takes with a bound for each.

    bench/hostile.py [PROGRAM] [--only TEXT]

PROGRAM is crates/clsynth/out/clsynth, which tools/clsynth builds. Times are those of all processors together, so they say what the
program does and not how busy the machine is. A run that is over its bound is repeated twice, and the least time counts.

The status is 1 if a run takes more than its bound, or doesn't end with status 0 and the right last line. An input that is known to be over
its bound is open: it is run for some seconds at most, and doesn't count. With --only, the inputs whose names have TEXT in them are run."""

from __future__ import annotations

import argparse
import sys
from collections.abc import Iterator
from dataclasses import dataclass
from pathlib import Path

import hostile_inputs as make
from measured import Bounds, Run, measure

TOP = Path(__file__).resolve().parents[1]
MOST_GOALS = ("--max-goals", "20000")
MOST_RULES = (*MOST_GOALS, "--max-rules", "1000000")
MOST_TERMS = ("--pool", "1000000")
RUNS = 3


@dataclass(frozen=True)
class Case:
    """An input with the last line of its answer, and what a run over it may take: seconds of processors, and MiB of memory.

    `open_seconds` isn't 0 if it is known to take more: after so many seconds the run is ended."""

    name: str
    text: str
    last_line: str
    seconds: float
    mebibytes: int
    words: tuple[str, ...] = ()
    open_seconds: int = 0


def cases() -> Iterator[Case]:
    yield from types_without_paths()
    yield from long_replies()
    yield from certificates()
    yield from repeated_queries()
    yield from libraries()
    yield from heads_and_covers()


def types_without_paths() -> Iterator[Case]:
    """What has no path weighs nothing, and has to cost next to nothing."""
    for place, (text, last_line) in make.towers(60).items():
        yield Case(f"a tower of 60 arrows before omega: {place}", text, last_line, 0.01, 10)
    yield Case("244 components of 4,096 instances without paths", make.weightless_instances(244), "", 0.5, 20)


def long_replies() -> Iterator[Case]:
    """A reply may take 100 MiB above what its closure takes, which is 257 MiB for the goals of long names."""
    yield Case("a page of 10,000 texts of 65,000 bytes", make.long_texts(10_000), "more", 1, 100)
    for query, last_line in (("grammar", "done"), ("certify", "qed")):
        yield Case(f"{query}, 19,457 goals of 341 long names", make.long_goals(query), last_line, 3, 357, MOST_GOALS)
    yield Case("certify, 341 layers of 1,024 covers", make.chained(1, "certify", "N -> "), "qed", 2.5, 100)


def certificates() -> Iterator[Case]:
    """Equal sets and equal rows are to be tested once."""
    yield Case("verify, 74,000 equal sets, 44,000 members", make.equal_sets(), "accepted", 0.15, 40)
    yield Case("verify, 50,000 sets that hold one of 70,000", make.equal_layers(), "refused 1 unblocked", 0.3, 40)
    yield Case("verify, equal rows behind 14,000 others", make.equal_rows(), "accepted", 0.15, 40)
    yield Case("verify, 500 members of the head of 65,536 paths", make.members_of_one_head(16, 500), "accepted", 0.9, 40)
    yield Case("verify, 50,000 members of a head of 65,536 arrows", make.members_of_arrows(16, 50_000), "accepted", 0.3, 40)


def repeated_queries() -> Iterator[Case]:
    """What a query found is kept for the next one, also where that is an error."""
    asked = make.filled(make.too_large(), "inhabit X")
    yield Case("104,000 times error too-large", asked, "error too-large", 0.5, 40)
    wide = f"error wide {make.meet(make.numbered('W', 11))}"
    yield Case("104,000 times error wide, 19,457 goals", make.filled(make.wide(), "inhabit X"), wide, 1, 60, MOST_GOALS)
    goals = make.many_goals() + "end\n"
    yield Case("20 times grammar of 19,457 goals", goals + "grammar X\n" * 20, "done", 0.5, 60, MOST_GOALS)
    turns = "inhabit X\nlist X max 9 take 9\nfinite X\ngrammar X\ncertify X\n" * 4
    yield Case("five queries of 19,457 goals, four times in turn", goals + turns, "qed", 0.5, 60, MOST_GOALS)
    two = make.two_large_goals(200) + "inhabit X\ninhabit Y\n" * 3
    yield Case("two goals of 204,800 rules of 32 arguments, in turn", two, "uninhabited", 2.5, 220, MOST_RULES, open_seconds=3)
    two = make.dense() + "inhabit n0\ninhabit n1\n" * 50
    yield Case("two goals of 244,800 rules, 50 times in turn", two, "inhabited", 1, 60, MOST_RULES)
    yield Case("100 times finite of 244,800 rules", make.dense() + "finite n0\n" * 100, "done", 0.8, 60, MOST_RULES)


def libraries() -> Iterator[Case]:
    yield Case("4 components of 4,096 names below one", make.one_class(4), "", 0.5, 40)
    yield Case("4 times 4,096 paths of one class", make.wrapped_class(4), "", 0.6, 40)


def heads_and_covers() -> Iterator[Case]:
    yield Case("4 components with 1,024 covers of 341 paths", make.chained(4, "inhabit"), "inhabited", 1.6, 40)
    yield Case("typed, twice 32 arguments of one head", make.arguments_of_one_head(16, 2), "yes", 0.3, 60)
    yield Case("inhabit, 500 goals of the head of 65,536 paths", make.goals_of_one_head(16, 500), "uninhabited", 1, 60)
    yield Case("inhabit, 5,000 goals of a head of 65,536 arrows", make.goals_of_arrows(16, 5_000), "uninhabited", 0.3, 40)
    yield Case("typed, 20 times 32 arguments of a head of 16,384", make.arguments_of_one_head(4, 20), "yes", 3, 40)
    yield Case("a page of 1,000 texts by 300,000 holes each", make.many_holes(1_000), "more", 0.6, 40, MOST_TERMS)


def least_run(program: str, case: Case) -> Run:
    """The run that takes the least time, of one or of several if one is over its bound. The system ends runs that take too long."""
    bounds = Bounds(seconds=case.open_seconds or 10)
    least = measure(program, case.words, case.text, bounds)
    for _ in range(0 if case.open_seconds else RUNS - 1):
        if least.seconds > case.seconds:
            least = min(least, measure(program, case.words, case.text, bounds), key=lambda run: run.seconds)
    return least


def faults(case: Case, run: Run) -> list[str]:
    """What is wrong with the run."""
    if run.end != "status 0":
        return [run.end]
    found = []
    if run.last_line != case.last_line:
        found.append(f"the last line is {run.last_line}")
    if run.seconds > case.seconds:
        found.append("time")
    if run.mebibytes > case.mebibytes:
        found.append("memory")
    return found


def report(program: str, case: Case) -> str:
    """Prints a line for the input, and says whether its run is within its bound, open or over."""
    run = least_run(program, case)
    wrong = faults(case, run)
    verdict = ("open" if case.open_seconds else "over") if wrong else "within"
    taken = f"{run.seconds:7.3f} s of {case.seconds:5.2f}{run.mebibytes:8.1f} MiB of {case.mebibytes:3}"
    print(f"{case.name:<54}{taken}  {verdict} {', '.join(wrong)}", flush=True)
    return verdict


def main() -> int:
    parser = argparse.ArgumentParser(description=__doc__, formatter_class=argparse.RawDescriptionHelpFormatter)
    parser.add_argument("program", nargs="?", default=str(TOP / "crates/clsynth/out/clsynth"))
    parser.add_argument("--only", metavar="TEXT", default="")
    options = parser.parse_args()
    verdicts = [report(options.program, case) for case in cases() if options.only in case.name]
    print(", ".join(f"{verdicts.count(verdict)} {verdict}" for verdict in ("within", "open", "over")))
    return 1 if "over" in verdicts else 0


if __name__ == "__main__":
    sys.exit(main())
