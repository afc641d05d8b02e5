#!/usr/bin/env python3
"""Times pages of 10,000 terms over books that are hard to list, and takes the greatest memory of the program.

    bench/pages.py [PROGRAM..] [--runs N]

PROGRAM is crates/clsynth/out/clsynth, where none is given. Several are run in turn, and have to write the same. The last
repository is listed with smaller bounds of the terms that may be held, too, which shows how the cost grows with the bound.

Times are those of whole runs: the best of some, with the start of the program."""
import argparse
import hashlib
import os
import subprocess
import tempfile
import time

from hostile_inputs import binary

TOP = os.path.dirname(os.path.dirname(os.path.abspath(__file__)))
PAGE = "list %s max 1024 take 10000\n"


def omega():
    """Ten components that may be applied to one another."""
    return "".join("comp c%d : A\n" % i for i in range(10)) + "end\n" + PAGE % "omega"


def wide(argument):
    """A component with 32 arguments of one node, which has a component alone and one more."""
    arrows = " -> ".join(["B"] * 32)
    return "comp f : %s -> A\ncomp x : B\ncomp y : %s\nend\n" % (arrows, argument) + PAGE % "A"


CASES = [
    (omega(), 1_000_000, "omega over 10 components"),
    (binary() + "end\n" + PAGE % "T0", 1_000_000, "200 nodes with rules of two arguments"),
    (wide("B -> B"), 1_000_000, "a rule with 32 arguments"),
    (wide("B"), 1_000_000, "a rule with 32 arguments that gives too many terms"),
    (wide("B"), 500_000, "the same with 500,000 terms"),
    (wide("B"), 250_000, "the same with 250,000 terms"),
]


def run(program, text, pool):
    """The time in milliseconds, the peak of memory in MiB, as GNU time reads it, and a digest of what was written."""
    words = [program, "--pool", str(pool)]
    with tempfile.TemporaryFile() as source, tempfile.TemporaryFile() as sink:
        source.write(text.encode())
        source.seek(0)
        start = time.perf_counter()
        subprocess.run(words, stdin=source, stdout=sink, check=True)
        taken = time.perf_counter() - start
        source.seek(0)
        report = subprocess.run(["/usr/bin/time", "-f", "%M", *words], stdin=source, stdout=subprocess.DEVNULL, stderr=subprocess.PIPE)
        sink.seek(0)
        return taken * 1000, int(report.stderr.split()[-1]) / 1024, hashlib.sha256(sink.read()).hexdigest()


def main():
    parser = argparse.ArgumentParser(description=__doc__, formatter_class=argparse.RawDescriptionHelpFormatter)
    parser.add_argument("programs", nargs="*", default=[os.path.join(TOP, "crates/clsynth/out/clsynth")])
    parser.add_argument("--runs", type=int, default=5)
    options = parser.parse_args()
    for text, pool, title in CASES:
        rows = [min(run(program, text, pool) for _ in range(options.runs)) for program in options.programs]
        assert len({written for _, _, written in rows}) == 1, title
        print("%s: %s" % (title, ", ".join("%.1f ms and %.1f MiB" % row[:2] for row in rows)))


if __name__ == "__main__":
    main()
