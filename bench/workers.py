#!/usr/bin/env python3
"""Compares runs with 1 to 64 workers, on all processors and on one: what they write, and the time that they take.

    bench/workers.py [PROGRAM] [--runs N] [--processor N]

PROGRAM is crates/clsynth/out/clsynth, which tools/clsynth builds. Times are those of all processors together, the least of some runs. Runs
with more workers may write nothing else than one with one worker, and take a tenth more time at most, and as much for each worker as it
takes to start a thread. The status is 1 if some run writes something else or takes more."""

from __future__ import annotations

import argparse
import os
import sys
from collections.abc import Iterator
from pathlib import Path

import hostile_inputs as make
from measured import Bounds, Run, measure

TOP = Path(__file__).resolve().parents[1]
WORKERS = (1, 2, 4, 8, 16, 32, 64)
MOST_GOALS = ("--max-goals", "20000")

# How much more time than one worker takes others may take: a part of it, and seconds for each thread.
PART = 0.1
SECONDS_OF_A_THREAD = 0.0001


def fan(goals: int) -> str:
    """A goal with so many rules, each over a goal of its own: all of them can be worked on at once."""
    arrows = [f"(C{number} -> T)" for number in range(goals)]
    comps = [f"comp f{place} : {make.meet(arrows[place : place + 165])}\n" for place in range(0, goals, 165)]
    return "".join(comps) + "end\ninhabit T\ngrammar T\n"


def chain(goals: int) -> str:
    """Goals of which each has one rule over the next one: one worker at a time has something to do."""
    comps = "".join(f"comp f{number} : G{number + 1} -> G{number}\n" for number in range(goals))
    return f"{comps}end\ninhabit G0\ngrammar G0\n"


def inputs() -> Iterator[tuple[str, str]]:
    yield "5,000 goals at once", fan(5_000)
    yield "19,457 goals, 1,024 of each of 19 components", make.many_goals() + "end\ninhabit X\ngrammar X\ncertify X\n"
    yield "a chain of 1,000 goals", chain(1_000)
    yield "2,000 goals one after another", "comp f : A -> B\nend\n" + "".join(f"inhabit A{number}\n" for number in range(2_000))


def least(program: str, text: str, workers: int, processors: tuple[int, ...], runs: int) -> tuple[Run, bool]:
    """The run that takes the least time, and whether all write the same."""
    words = ("--workers", str(workers), *MOST_GOALS)
    found = [measure(program, words, text, Bounds(processors=processors)) for _ in range(runs)]
    return min(found, key=lambda run: run.seconds), len({(run.digest, run.end) for run in found}) == 1


def compare(program: str, name: str, text: str, processors: tuple[int, ...], runs: int) -> bool:
    """Prints a line for each number of workers, and says whether all is as it is with one."""
    print(f"{name}, on {len(processors)} {'processors' if len(processors) > 1 else 'processor'}")
    one, is_well = least(program, text, 1, processors, runs)
    for workers in WORKERS:
        run, is_same = least(program, text, workers, processors, runs) if workers > 1 else (one, is_well)
        is_same = is_same and (run.digest, run.end) == (one.digest, "status 0")
        is_fast = run.seconds <= (1 + PART) * one.seconds + workers * SECONDS_OF_A_THREAD
        wrong = f"{'' if is_same else ' another output'}{'' if is_fast else ' more time'}"
        print(f"    {workers:2} workers: {1000 * run.seconds:7.1f} ms, {run.mebibytes:6.1f} MiB{wrong}", flush=True)
        is_well = is_well and not wrong
    return is_well


def main() -> int:
    parser = argparse.ArgumentParser(description=__doc__, formatter_class=argparse.RawDescriptionHelpFormatter)
    parser.add_argument("program", nargs="?", default=str(TOP / "crates/clsynth/out/clsynth"))
    parser.add_argument("--runs", type=int, default=5)
    parser.add_argument("--processor", type=int, default=0, help="the one processor")
    options = parser.parse_args()
    places = [tuple(os.sched_getaffinity(0)), (options.processor,)]
    cases = [(name, text, place) for name, text in inputs() for place in places]
    return 0 if all([compare(options.program, *case, options.runs) for case in cases]) else 1


if __name__ == "__main__":
    sys.exit(main())
