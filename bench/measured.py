"""One run of a program over an input, with what it took: the time of its processors, the peak of its memory, and what it wrote."""

from __future__ import annotations

import hashlib
import os
import resource
import subprocess
import tempfile
from dataclasses import dataclass

# The end of what is written, in which the last line stands.
TAIL = 1_000


@dataclass(frozen=True)
class Run:
    """`seconds` are those of all processors together, `digest` is one of all that was written, and `end` is a status or a signal."""

    seconds: float
    mebibytes: float
    written: int
    last_line: str
    digest: str
    end: str


@dataclass(frozen=True)
class Bounds:
    """A run is ended by the system if it takes more: seconds of processors, 50 times as many by the clock, and address space.

    If `processors` has some, the run has these alone."""

    seconds: int = 60
    mebibytes: int = 6_144
    processors: tuple[int, ...] = ()


def measure(program: str, words: tuple[str, ...], text: str, bounds: Bounds = Bounds()) -> Run:
    """The memory is as GNU time tells it. What the system tells this process of its child has the memory of this process in it."""

    def limit() -> None:
        resource.setrlimit(resource.RLIMIT_CPU, (bounds.seconds, bounds.seconds + 1))
        resource.setrlimit(resource.RLIMIT_AS, (bounds.mebibytes << 20, bounds.mebibytes << 20))
        if bounds.processors:
            os.sched_setaffinity(0, bounds.processors)

    with tempfile.TemporaryFile() as source, tempfile.NamedTemporaryFile() as report:
        source.write(text.encode())
        source.seek(0)
        timed = ["timeout", "-s", "KILL", str(50 * bounds.seconds), "/usr/bin/time", "-f", "%M", "-o", report.name, program, *words]
        child = subprocess.Popen(timed, stdin=source, stdout=subprocess.PIPE, preexec_fn=limit)
        written, tail, digest = drain(child)
        _, status, used = os.wait4(child.pid, 0)
        child.returncode = os.waitstatus_to_exitcode(status)
        kibibytes = int((report.read().split() or [b"0"])[-1])
    return Run(used.ru_utime + used.ru_stime, kibibytes / 1024, written, last_line(tail), digest, end_of(child.returncode))


def drain(child: subprocess.Popen[bytes]) -> tuple[int, bytes, str]:
    """How many bytes the child writes, the last of them, and a digest of all."""
    assert child.stdout
    written, tail, digest = 0, b"", hashlib.sha256()
    while piece := os.read(child.stdout.fileno(), 1 << 20):
        written += len(piece)
        tail = (tail + piece)[-TAIL:]
        digest.update(piece)
    return written, tail, digest.hexdigest()


def last_line(tail: bytes) -> str:
    lines = tail.decode(errors="replace").splitlines()
    return lines[-1] if lines else ""


def end_of(code: int) -> str:
    """GNU time and `timeout` end with 128 and the number of the signal that ended what they ran."""
    return f"status {code}" if 0 <= code < 128 else f"signal {code % 128 if code > 0 else -code}"
