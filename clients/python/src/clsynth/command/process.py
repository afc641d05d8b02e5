"""The program, run once over a whole input."""

from __future__ import annotations

import tempfile
from collections.abc import Iterator

from clsynth.command.sources import Sources
from clsynth.errors import Status, UsageFault
from clsynth.program import Options, find_program, kill, started
from clsynth.transcripts import Exchange, read_replies

__all__ = ["END_WORDS", "Run"]

END_WORDS = {
    3: "it couldn't read its input",
    4: "it couldn't write its output",
    5: "it is out of memory",
    6: "more than 1,048,576 bytes came, and what stands behind them isn't answered",
}
"""What a status of the program means, where its output doesn't tell."""


class Run:
    """The program over the text of some files. `status` is that of the program, once all replies were taken. Raises `UsageFault` if the
    program doesn't take the words of the options."""

    def __init__(self, sources: Sources, options: Options) -> None:
        self._sources = sources
        self._words = [find_program(), *options.words()]
        self.status = 0

    def exchanges(self) -> Iterator[Exchange]:
        """The replies in turn, each as soon as it was written."""
        with tempfile.TemporaryFile() as given:
            given.write(self._sources.text)
            given.seek(0)
            with started(self._words, given) as process:
                assert process.stdout
                try:
                    yield from read_replies(self._sources.input, process.stdout)
                    process.stdout.read()
                except BaseException:
                    # Whoever takes the replies has stopped.
                    kill(process)
                    raise
                self.status = process.wait()
                if self.status == Status.USAGE.value:
                    raise UsageFault(self._words)
