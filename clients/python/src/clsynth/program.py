"""The program: where it is, with which words it is started, and its process."""

from __future__ import annotations

import os
import shutil
import signal
import subprocess
from contextlib import suppress
from dataclasses import dataclass
from pathlib import Path
from typing import IO

from clsynth.errors import ProcessFault, ProgramNotFound, Status, UsageFault
from clsynth.limits import MAX_INPUT_BYTES
from clsynth.tokens import text_of

__all__ = ["Options", "Program", "find_program", "kill", "started"]

_NAME = "clsynth"
_VARIABLE = "CLSYNTH"


def find_program(program: str | os.PathLike[str] | None = None) -> str:
    """The path of the program: what is given, or else what the variable CLSYNTH of the environment says, or else the command `clsynth`
    on the PATH, or else the file `bin/clsynth` beside this package, as a wheel may have it. Raises `ProgramNotFound`."""
    told = os.environ.get(_VARIABLE)
    if program is not None:
        places = [(f"the argument `program`: {os.fspath(program)!r}", os.fspath(program))]
    elif told:
        places = [("the argument `program`: not given", ""), (f"the variable {_VARIABLE}: {told!r}", told)]
    else:
        beside = str(Path(__file__).parent / "bin" / _NAME)
        places = [
            ("the argument `program`: not given", ""), (f"the variable {_VARIABLE}: not set", ""),
            (f"the command {_NAME!r} on the PATH: {os.environ.get('PATH', '')}", _NAME), (f"beside the package: {beside}", beside),
        ]
    for _, place in places:
        found = shutil.which(place) if place else None
        if found:
            return found
    raise ProgramNotFound(f"{said}: no program that can be run" if place else said for said, place in places)


@dataclass(frozen=True)
class Options:
    """The options of the program. One that is None isn't given, and has the value that docs/LANGUAGE.md says."""

    workers: int | None = None
    max_goals: int | None = None
    max_rules: int | None = None
    pool: int | str | None = None
    others: tuple[str, ...] = ()
    """Words that stand behind these options, as a program may take that has more of them."""

    def words(self) -> list[str]:
        """As the command line has them."""
        given = {"--workers": self.workers, "--max-goals": self.max_goals, "--max-rules": self.max_rules, "--pool": self.pool}
        return [word for name, value in given.items() if value is not None for word in (name, str(value))] + list(self.others)


def started(words: list[str], given: int | IO[bytes]) -> subprocess.Popen[bytes]:
    """The process of the program with these words, which reads what is given. Raises `ProgramNotFound` if it can't be run."""
    try:
        # In a group of its own: what the keyboard interrupts is the caller, and a program that waits for queries goes on waiting.
        return subprocess.Popen(words, stdin=given, stdout=subprocess.PIPE, process_group=0)
    except OSError as error:
        raise ProgramNotFound([f"{words[0]}: {error.strerror}"]) from None


def kill(process: subprocess.Popen[bytes]) -> None:
    """Ends the process at once, and those that it started: the program may be run by a script."""
    if process.poll() is None:
        with suppress(ProcessLookupError):
            os.killpg(process.pid, signal.SIGKILL)


class Program:
    """The process, its input and its output."""

    def __init__(self, words: list[str]) -> None:
        self._words = words
        self._process = started(words, subprocess.PIPE)
        assert self._process.stdin and self._process.stdout
        self._input = self._process.stdin
        self._output = self._process.stdout
        self.bytes_left = MAX_INPUT_BYTES

    @property
    def has_ended(self) -> bool:
        """Whether it ended by itself, or was killed from outside."""
        return self._process.poll() is not None

    def send(self, piece: bytes) -> None:
        """Sends lines, of no more bytes than are left."""
        self.bytes_left -= len(piece)
        # If the program has ended, its last lines and its status are still to be read.
        with suppress(BrokenPipeError):
            self._input.write(piece)
            self._input.flush()

    def line(self) -> str:
        """The next line of the output, without its line feed."""
        line = self._output.readline()
        if not line.endswith(b"\n"):
            raise self.fault()
        return text_of(line[:-1])

    def text(self, length: int) -> str:
        """The text of the next so many bytes, behind which a line feed stands."""
        piece = self._output.read(length + 1)
        if len(piece) <= length:
            raise self.fault()
        return piece[:length].decode()

    def close(self) -> None:
        """Ends the input, and waits for the program to end."""
        code = self._end()
        if code != Status.DONE.value:
            raise ProcessFault(code)

    def kill(self) -> None:
        """Ends the program at once. Another thread may call this: whoever reads finds the end of the output."""
        kill(self._process)

    def abandon(self) -> None:
        """Ends the program at once, and frees what it held."""
        kill(self._process)
        self._end()

    def fault(self) -> ProcessFault:
        """Why the output ended too early."""
        code = self._end()
        return UsageFault(self._words) if code == Status.USAGE.value else ProcessFault(code)

    def _end(self) -> int:
        with suppress(BrokenPipeError):
            self._input.close()
        self._output.close()
        return self._process.wait()
