#!/usr/bin/env python3
"""Times sessions in which a component goes and comes back again and again, with a query behind each change.

    bench/changes.py [PROGRAM..] [--runs N] [--only TEXT]

PROGRAM is crates/clsynth/out/clsynth, which tools/clsynth builds. Several are run in turn, and have to write the same. Times are those
of all processors together, the least of some runs. With --only, the sessions whose names have TEXT in them are run.

The status is 1 if a run ends in another way than with status 0, or if two write something else."""

from __future__ import annotations

import argparse
import sys
from collections.abc import Iterator
from pathlib import Path

import filter_inputs as make
from hostile_inputs import binary
from measured import Run, measure

TOP = Path(__file__).resolve().parents[1]
WORDS = ("--max-goals", "20000", "--max-rules", "1000000", "--pool", "1000000")


def sessions() -> Iterator[tuple[str, str]]:
    """The names of sessions, with their inputs. A goal of which no component came or went is known; others are looked at again."""
    library, nodes, tree = make.LIBRARY, binary(), make.tree(5_001)
    idle = "comp idle : Nothing -> Nothing\n"
    for name, repository, query, times in (
        ("a library", library, "inhabit List(Int) & Desc", 2_000),
        ("200 nodes", nodes, "inhabit T0", 200),
        ("a tree of 5,001 goals", tree, "inhabit C0", 20),
        ("a page of a library", library, "list List(Int) & Desc max 9 take 9", 2_000),
    ):
        yield f"{name}, unchanged", f"{repository}{idle}end\n{query}\n" + f"{query}\n" * times
        changed = f"drop idle\n{query}\nadd idle : Nothing -> Nothing\n{query}\n"
        yield f"{name}, with an idle component that comes and goes", f"{repository}{idle}end\n{query}\n" + changed * (times // 2)
        last = [line for line in repository.splitlines() if line.startswith("comp ")][-1].split(" ", 3)
        changed = f"drop {last[1]}\n{query}\nadd {last[1]} : {last[3]}\n{query}\n"
        yield f"{name}, with its last component", f"{repository}{idle}end\n{query}\n" + changed * (times // 2)
    lines = "drop idle\nadd idle : Nothing -> Nothing\n" * 10_000
    yield "20,000 changes without a query", f"{tree}{idle}end\ninhabit C0\n{lines}inhabit C0\n"


def least(program: str, text: str, runs: int) -> tuple[Run, set[tuple[str, str]]]:
    """The run that takes the least time, and what the runs write, with how they end."""
    found = [measure(program, WORDS, text) for _ in range(runs)]
    return min(found, key=lambda run: run.seconds), {(run.digest, run.end) for run in found}


def compare(programs: list[str], name: str, text: str, runs: int) -> bool:
    """Prints a line for the session, and says whether all runs write the same and end well."""
    found = [least(program, text, runs) for program in programs]
    times = ", ".join(f"{1000 * run.seconds:7.1f} ms {run.mebibytes:6.1f} MiB" for run, _ in found)
    written = set().union(*(outputs for _, outputs in found))
    is_well = len(written) == 1 and {end for _, end in written} == {"status 0"}
    print(f"{name:<66} {times}{'' if is_well else ' WRONG'}", flush=True)
    return is_well


def main() -> int:
    parser = argparse.ArgumentParser(description=__doc__, formatter_class=argparse.RawDescriptionHelpFormatter)
    parser.add_argument("programs", nargs="*", default=[str(TOP / "crates/clsynth/out/clsynth")])
    parser.add_argument("--runs", type=int, default=3)
    parser.add_argument("--only", default="")
    given = parser.parse_args()
    told = [compare(given.programs, name, text, given.runs) for name, text in sessions() if given.only in name]
    return 0 if all(told) else 1


if __name__ == "__main__":
    sys.exit(main())
