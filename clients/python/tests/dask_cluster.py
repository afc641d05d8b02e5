"""Starts a scheduler and two workers of dask on this machine, asks them 200 queries, and kills one of the workers in the middle.

It is a program of its own, since dask may be there for another Python than the one that runs the tests.
"""

from __future__ import annotations

import os
import signal
import subprocess
import sys
import tempfile
from contextlib import ExitStack
from pathlib import Path
from typing import Any

import distributed
from support import LISTS, gated_program, session, wait_until

from clsynth import Query, map_queries, queries
from clsynth.replies import Page
from clsynth.terms import Term

HERE = "127.0.0.1"
# It has no types in some versions.
dask: Any = distributed
ASKED: list[Query[Page[Term]]] = [queries.page("List(Int)", 1 + number % 50, after="rev(input)") for number in range(200)]
EARLY = 10


def main() -> None:
    with ExitStack() as stack:
        folder = Path(stack.enter_context(tempfile.TemporaryDirectory()))
        client = started_cluster(stack, folder)
        found = map_queries(client.get_executor(), LISTS, ASKED, batch=2, program=gated_program(folder, EARLY))
        # A tenth of the batches is answered or under way, and no other one can end before the gate is open.
        wait_until(lambda: len(list(folder.glob("run_*"))) == EARLY)
        os.kill(min(client.run(os.getpid).values()), signal.SIGKILL)
        wait_until(lambda: client.run_on_scheduler(count_workers) == 1)
        (folder / "gate").touch()
        answers = list(found)
    with session(LISTS) as lists:
        assert answers == [lists.ask(query) for query in ASKED]
    print(f"{len(answers)} answers, and one worker of 2 was lost")


def started_cluster(stack: ExitStack, folder: Path) -> Any:
    """A client of a cluster that ends with the stack."""
    file = str(folder / "scheduler.json")
    words = ["--scheduler-file", file, "--host", HERE, "--no-dashboard"]
    started(stack, "distributed.cli.dask_scheduler", "--port", "0", *words)
    for name in ("one", "two"):
        started(stack, "distributed.cli.dask_worker", "--nthreads", "1", "--no-nanny", "--local-directory", str(folder / name), *words)
    wait_until(lambda: os.path.exists(file) and os.path.getsize(file) > 0)
    client = stack.enter_context(dask.Client(scheduler_file=file))
    client.wait_for_workers(2, timeout=60)
    return client


def started(stack: ExitStack, *words: str) -> None:
    process = subprocess.Popen([sys.executable, "-m", *words], stdout=subprocess.DEVNULL, stderr=subprocess.DEVNULL)
    stack.callback(process.wait)
    stack.callback(process.kill)


def count_workers(dask_scheduler: Any) -> int:
    """Is run by the scheduler, which has itself given under this name."""
    return len(dask_scheduler.workers)


if __name__ == "__main__":
    main()
