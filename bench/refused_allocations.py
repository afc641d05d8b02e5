#!/usr/bin/env python3
"""Refuses each allocation of a run in turn, one number at a time, and tells how the runs end.

    bench/refused_allocations.py PROGRAM [INPUT [WORD ..]]

PROGRAM is crates/clsynth/out/clsynth, which tools/clsynth builds. Without INPUT it is run on the session of tests/every_form.py, which
has a line of each form; .ci/run does that. A refused allocation has to end the run with status 5, and what was written by then has to
begin what the whole run writes. Otherwise the run has to be the whole one: its allocation could be done without. In a history another
worker may have done the work. It needs cc and the C library of GNU, whose malloc and realloc it stands before."""
import collections
import os
import re
import shutil
import subprocess
import sys
import tempfile
from concurrent.futures import ThreadPoolExecutor
from functools import partial
from pathlib import Path

sys.dont_write_bytecode = True
sys.path.insert(0, str(Path(__file__).resolve().parents[1] / "tests"))

import every_form

BEFORE = r"""
#include <fcntl.h>
#include <stddef.h>
#include <stdlib.h>
#include <sys/mman.h>
#include <unistd.h>
extern void *__libc_malloc(size_t), *__libc_realloc(void *, size_t);
static long *count, at;
static int refused(void) {
    if (!count) {
        int file = open(getenv("COUNT"), O_RDWR);
        at = atol(getenv("REFUSE"));
        count = mmap(NULL, sizeof *count, PROT_READ | PROT_WRITE, MAP_SHARED, file, 0);
        close(file);
    }
    return __sync_add_and_fetch(count, 1) == at;
}
void *malloc(size_t n) { return refused() ? NULL : __libc_malloc(n); }
void *realloc(void *p, size_t n) { return refused() ? NULL : __libc_realloc(p, n); }
"""


def run(program, words, source, room, number):
    """The status and the output of a run whose allocation with this number is refused, and how many it made."""
    counter = os.path.join(room, f"count{number}")
    with open(counter, "wb") as it:
        it.write(bytes(8))
    library = os.path.join(room, "before.so")
    given = {"LD_PRELOAD": library, "COUNT": counter, "REFUSE": str(number)}
    with open(source, "rb") as it:
        pipe = subprocess.PIPE
        ended = subprocess.run([program, *words], stdin=it, stdout=pipe, stderr=pipe, env={**os.environ, **given})
    text = re.sub(rb"(?m)^(claim|file) \d+ ", rb"\1 WORKER ", ended.stdout)
    with open(counter, "rb") as it:
        return ended.returncode, text, int.from_bytes(it.read(8), sys.byteorder)


def input_in(room):
    """The session of each form as a file, and its words."""
    source = os.path.join(room, "input")
    Path(source).write_bytes(every_form.INPUT)
    return source, ("--workers", "1", *every_form.WORDS)


def compile_library(room):
    with open(os.path.join(room, "before.c"), "w") as it:
        it.write(BEFORE)
    subprocess.run(["cc", "-shared", "-fPIC", "-O2", "-o", f"{room}/before.so", f"{room}/before.c"], check=True)


def main(program, source=None, *words):
    if not shutil.which("cc"):
        print("skipped: cc isn't on the PATH")
        return 1 if os.environ.get("CI") == "true" else 0
    with tempfile.TemporaryDirectory() as room:
        compile_library(room)
        source, words = (source, words or ("--workers", "1")) if source else input_in(room)
        refused = partial(run, program, words, source, room)
        status, whole, count = refused(0)
        with ThreadPoolExecutor(os.cpu_count()) as pool:
            runs = list(pool.map(refused, range(1, count + 1)))
    ends, wrong = collections.Counter(), []
    for number, (ended, text, _) in enumerate(runs, 1):
        is_whole = (ended, text) == (status, whole)
        if not is_whole and not (ended == 5 and whole.startswith(text)):
            wrong.append(number)
        ends["the whole run" if is_whole else f"status {ended}"] += 1
    print(f"{count} allocations, each refused once: " + ", ".join(f"{n} times {what}" for what, n in sorted(ends.items())))
    if wrong:
        print("wrong at:", *wrong[:20])
    return 1 if wrong or not count else 0


if __name__ == "__main__":
    sys.exit(main(*sys.argv[1:]) if len(sys.argv) > 1 else __doc__)
