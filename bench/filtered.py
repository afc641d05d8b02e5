#!/usr/bin/env python3
"""Times pages of the terms that a filter of 16 states accepts, beside the same pages without a filter.

    bench/filtered.py [PROGRAM..] [--runs N] [--only TEXT]

PROGRAM is crates/clsynth/out/clsynth, which tools/clsynth builds. Several are run in turn, and have to write the same. Times are those
of all processors together, the least of some runs. With --only, the pages whose names have TEXT in them are asked for.

The status is 1 if a run ends in another way than with status 0, or if two write something else."""

from __future__ import annotations

import argparse
import sys
from collections.abc import Iterator
from dataclasses import dataclass
from pathlib import Path

import filter_inputs as make
from hostile_inputs import binary
from measured import Run, measure

TOP = Path(__file__).resolve().parents[1]
WORDS = ("--max-goals", "20000", "--max-rules", "1000000", "--pool", "1000000")


@dataclass(frozen=True)
class Page:
    """A page of so many terms of the type, which is asked for so many times."""

    name: str
    repository: str
    type: str
    take: int
    times: int = 1


def pages() -> Iterator[Page]:
    library, nodes, tree = make.LIBRARY, binary(), make.tree(5_001)
    yield Page("numbers of a library", library, "Int", 10_000)
    yield Page("lists of a library", library, "List(Int)", 10_000)
    yield Page("descending lists of a library", library, "List(Int) & Desc", 1_000)
    yield Page("omega over 36 components", library, "omega", 10_000)
    yield Page("200 nodes with rules of two arguments", nodes, "T0", 10)
    yield Page("the same, refused with a filter", nodes, "T0", 10_000)
    yield Page("a tree of 5,001 goals", tree, "C0", 10)
    yield Page("the same, 20 times", tree, "C0", 10, 20)
    yield Page("the same, refused with a filter and without", tree, "C0", 10_000)


def text_of(page: Page, query: str) -> str:
    """The repository with a filter, whether the query has it or not."""
    line = f"{query} {page.type} max 1024 take {page.take}\n"
    return f"{page.repository}{make.filter_over(page.repository)}end\n{line * page.times}"


def inputs(only: str) -> Iterator[tuple[str, str]]:
    for page in pages():
        if only in page.name:
            yield page.name, text_of(page, "list")
            yield f"{page.name}, filtered", text_of(page, "filtered F")


def least(program: str, text: str, runs: int) -> tuple[Run, set[tuple[str, str]]]:
    """The run that takes the least time, and what the runs write, with how they end."""
    found = [measure(program, WORDS, text) for _ in range(runs)]
    return min(found, key=lambda run: run.seconds), {(run.digest, run.end) for run in found}


def compare(programs: list[str], name: str, text: str, runs: int) -> bool:
    """Prints a line for the input, and says whether all runs write the same and end well."""
    found = [least(program, text, runs) for program in programs]
    times = ", ".join(f"{1000 * run.seconds:7.1f} ms {run.mebibytes:6.1f} MiB" for run, _ in found)
    written = set().union(*(outputs for _, outputs in found))
    is_well = len(written) == 1 and {end for _, end in written} == {"status 0"}
    print(f"{name:<60} {times}, {found[0][0].last_line}{'' if is_well else ' WRONG'}", flush=True)
    return is_well


def main() -> int:
    parser = argparse.ArgumentParser(description=__doc__, formatter_class=argparse.RawDescriptionHelpFormatter)
    parser.add_argument("programs", nargs="*", default=[str(TOP / "crates/clsynth/out/clsynth")])
    parser.add_argument("--runs", type=int, default=5)
    parser.add_argument("--only", metavar="TEXT", default="")
    options = parser.parse_args()
    return 0 if all([compare(options.programs, *it, options.runs) for it in inputs(options.only)]) else 1


if __name__ == "__main__":
    sys.exit(main())
