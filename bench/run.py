#!/usr/bin/env python3
"""Times the program on large inputs: the best of some runs, and the peak of its memory by GNU time.

    bench/run.py [PROGRAM] [--runs N]

PROGRAM is crates/clsynth/out/clsynth, which tools/clsynth builds. The inputs are those of the first table of docs/PERFORMANCE.md, in
its order. The status is 1 if a run ends in another way than it must."""

from __future__ import annotations

import argparse
import os
import subprocess
import sys
import tempfile
import time
from collections.abc import Iterator
from dataclasses import dataclass
from pathlib import Path

TOP = Path(__file__).resolve().parents[1]
MAX_INPUT_BYTES = 1_048_576
ONE_TERM = "list omega max 1 take 1\n"
LONG_TERMS = "list omega max 1024 take 10000\n"


@dataclass(frozen=True)
class Input:
    """A text with what it is, and the last line that its answer must have."""

    name: str
    text: str
    last_line: str = ""


@dataclass(frozen=True)
class Run:
    """What a run took and wrote, with its status."""

    seconds: float
    kibibytes: int
    written: int
    last_line: str
    status: int


def components(count: int) -> str:
    return "".join(f"comp c{number} : A\n" for number in range(count)) + "end\n"


def comments(length: int) -> str:
    line = "# " + "a comment " * 8 + "\n"
    text = line * (length // len(line))
    return text + "#" * (length - len(text) - 1) + "\n"


def short_comments() -> str:
    """A repository of 999 components, short comments that fill the input, and one query."""
    head, tail, line = components(999).removesuffix("end\n"), "end\n" + ONE_TERM, "# fill\n"
    return head + line * ((MAX_INPUT_BYTES - len(head) - len(tail)) // len(line)) + tail


def mixed() -> str:
    """10,000 queries for one term each, between comments that fill the input."""
    head = components(1)
    fill = (MAX_INPUT_BYTES - len(head)) // 10_000 - len(ONE_TERM)
    text = head + ("#" * (fill - 1) + "\n" + ONE_TERM) * 10_000
    return text + "#" * (MAX_INPUT_BYTES - len(text))


def inputs() -> Iterator[Input]:
    yield Input("1,000 components, list omega max 1 take 1000", components(1000) + "list omega max 1 take 1000\n", "done")
    yield Input("1 MiB of comments", comments(MAX_INPUT_BYTES - 4) + "end\n")
    yield Input("a repository of 1 MiB, nearly all of it comments", short_comments(), "more")
    yield Input("1 MiB of queries, each for one term", components(1) + ONE_TERM * 43_689, "done")
    yield Input("1 MiB with 10,000 short queries", mixed(), "done")
    yield Input("one line of 1 MiB", "end\n" + "x" * (MAX_INPUT_BYTES - 4), "error long")
    yield Input("1 component, list omega max 1024 take 10000", components(1) + LONG_TERMS, "more")
    yield Input("10 components, list omega max 1024 take 10000", components(10) + LONG_TERMS, "more")
    yield Input("446 components, list omega max 2 take 10000", components(446) + "list omega max 2 take 10000\n", "more")
    yield Input("100 components, 1,000 pages of 10,000 terms", components(100) + "list omega max 2 take 10000\n" * 1000, "more")
    too_many = components(1000) + "list omega max 2 take 10000\n" * 100
    yield Input("1,000 components, 100 times too many terms", too_many, "error too-many-terms")
    yield Input("no component, 100 times max 1024", "end\n" + LONG_TERMS * 100, "done")


def measure(program: str, text: str) -> Run:
    with tempfile.TemporaryFile() as source, tempfile.TemporaryFile() as sink:
        source.write(text.encode())
        source.seek(0)
        start = time.perf_counter()
        status = subprocess.call([program], stdin=source, stdout=sink)
        seconds = time.perf_counter() - start
        size = sink.seek(0, os.SEEK_END)
        sink.seek(max(0, size - 100))
        lines = sink.read().decode().splitlines()
        source.seek(0)
        words = ["/usr/bin/time", "-f", "%M", program]
        timed = subprocess.run(words, stdin=source, stdout=subprocess.DEVNULL, stderr=subprocess.PIPE)
        return Run(seconds, int(timed.stderr.split()[-1]), size, lines[-1] if lines else "", status)


def report(it: Input, runs: list[Run]) -> bool:
    """Prints a line for the input, and says whether each run ended as it must."""
    wrong = next((run for run in runs if (run.last_line, run.status) != (it.last_line, 0)), None)
    if wrong:
        print(f"{it.name}: status {wrong.status}, and the last line is {wrong.last_line!r}", file=sys.stderr)
        return False
    seconds, kibibytes = min(run.seconds for run in runs), max(run.kibibytes for run in runs)
    print(f"{it.name:<48} {1000 * seconds:8.1f} ms {kibibytes:7d} KiB, {runs[0].written} bytes written", flush=True)
    return True


def main() -> int:
    parser = argparse.ArgumentParser(description=__doc__, formatter_class=argparse.RawDescriptionHelpFormatter)
    parser.add_argument("program", nargs="?", default=str(TOP / "crates/clsynth/out/clsynth"))
    parser.add_argument("--runs", type=int, default=5)
    options = parser.parse_args()
    return 0 if all([report(it, [measure(options.program, it.text) for _ in range(options.runs)]) for it in inputs()]) else 1


if __name__ == "__main__":
    sys.exit(main())
