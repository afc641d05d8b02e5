"""What the tests have in common: the package, the program, and some repositories."""

from __future__ import annotations

import os
import signal
import sys
import tempfile
import time
import unittest
from collections.abc import Callable
from pathlib import Path
from typing import Any, NoReturn

SOURCES = Path(__file__).resolve().parents[1] / "src"
sys.path.insert(0, str(SOURCES))

import clsynth

BUILT = Path(__file__).resolve().parents[3] / "crates/clsynth/out/clsynth"
PROGRAM = os.environ.get("CLSYNTH") or str(BUILT)

LISTS = """
kind a = Int | Str
comp input : List(Int)
comp sort : List($a) -> List($a) & Asc
comp rev : (List($a) -> List($a)) & (Asc -> Desc) & (Desc -> Asc)
text input = xs
text sort = sorted({1})
text rev = {1}\\n  .reversed()
"""
CHAIN = "comp x : A\ncomp f : A -> A\n"
# The filter accepts the terms in which no `f` is applied to a term that begins with `f`.
ONCE = (
    "comp x : A\ncomp f : A -> A\ncomp g : A -> A\nfilter once accepts N V\nleaf once f -> R\napp once R V -> none\n"
    "app once R _ -> V\nother once N\n"
)


def session(repository: str | clsynth.Repository, **options: Any) -> clsynth.Session:
    options.setdefault("lint", False)
    return clsynth.Session(repository, program=PROGRAM, **options)


def terms(*texts: str) -> list[clsynth.Term]:
    return [clsynth.Term.parse(text) for text in texts]


def gated_program(folder: Path, early: int) -> str:
    """The program, which answers at once for so many runs, each of which makes a folder `run_..`. Others wait for the file `gate`."""
    script = folder / "program"
    script.write_text(
        "#!/bin/sh\n"
        f"for run in {' '.join(map(str, range(early)))}; do\n"
        f"    mkdir {folder}/run_$run 2>/dev/null && exec {PROGRAM} \"$@\"\n"
        "done\n"
        f"while [ ! -e {folder}/gate ]; do sleep 0.05; done\n"
        f"exec {PROGRAM} \"$@\"\n"
    )
    script.chmod(0o755)
    return str(script)


def take_interrupts() -> None:
    """For a process that is to be started: an interrupt reaches it, also where the tests ignore that, as behind `&` in a script."""
    signal.signal(signal.SIGINT, signal.SIG_DFL)


def wait_until(holds: Callable[[], object]) -> None:
    for _ in range(1_200):
        if holds():
            return
        time.sleep(0.1)
    raise TimeoutError("two minutes passed")


def freeze(asked: clsynth.Session | clsynth.AsyncSession) -> None:
    """Has the program of a session stand still, as if a query took for ever. It can be killed all the same."""
    session = asked._session if isinstance(asked, clsynth.AsyncSession) else asked
    assert session and session._program
    os.kill(session._program._process.pid, signal.SIGSTOP)


def not_tested(test: unittest.TestCase, what: str) -> NoReturn:
    """Says loudly that something isn't there that a test needs. Where CI is true, the test fails."""
    if os.environ.get("CI", "").lower() == "true":
        test.fail(what)
    print(f"\nNOT TESTED: {what}", file=sys.stderr)
    raise unittest.SkipTest(what)


def fake(test: unittest.TestCase, body: str) -> str:
    """A program of its own kind, a script of the shell, in a folder that goes with the test."""
    folder = tempfile.TemporaryDirectory()
    test.addCleanup(folder.cleanup)
    program = Path(folder.name, "program")
    program.write_text("#!/bin/sh\n" + body)
    program.chmod(0o755)
    return str(program)
