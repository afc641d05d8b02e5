"""A bar that shows how much is done, on a terminal alone."""

from __future__ import annotations

import sys

__all__ = ["Progress"]

_WIDTH = 30


class Progress:
    """Shows on standard error how many of a number are done. It says nothing if that is no terminal."""

    def __init__(self, whole: int) -> None:
        self._whole = whole
        self._done = 0
        self._is_shown = sys.stderr.isatty()

    def add(self, count: int) -> None:
        """Says that so many more are done."""
        self._done += count
        if self._is_shown and self._done < self._whole:
            filled = _WIDTH * self._done // self._whole
            self._write(f"\r[{'#' * filled}{' ' * (_WIDTH - filled)}] {self._done:,} of {self._whole:,}")

    def clear(self) -> None:
        """Takes the bar away."""
        if self._is_shown:
            self._write("\r\x1b[K")

    def _write(self, text: str) -> None:
        sys.stderr.write(text)
        sys.stderr.flush()
