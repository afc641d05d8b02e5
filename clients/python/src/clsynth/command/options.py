"""The words of the command line."""

from __future__ import annotations

import sys
from argparse import ArgumentParser, ArgumentTypeError, Namespace
from collections.abc import Callable
from typing import NoReturn

from clsynth.command.statuses import USAGE
from clsynth.limits import MAX_POOL, MAX_SIZE
from clsynth.program import Options

__all__ = ["Parser", "add_program_options", "number", "options_of", "size"]


class Parser(ArgumentParser):
    """Ends with the status that the program has for words of no form."""

    def error(self, message: str) -> NoReturn:
        self.print_usage(sys.stderr)
        self.exit(USAGE, f"{self.prog}: {message}\n")


def number(greatest: int) -> Callable[[str], int]:
    """Reads a number from 1 to this one."""
    def read(text: str) -> int:
        if not text.isascii() or not text.isdigit() or not 1 <= int(text[:20]) <= greatest:
            raise ArgumentTypeError(f"{text} is no number from 1 to {greatest:,}")
        return int(text)
    return read


size = number(MAX_SIZE)
"""Reads a size of terms."""


def pool(text: str) -> int | str:
    """Reads a number of terms. A word is left to the program, which may have one for no bound at all."""
    return text if text.isalpha() else number(MAX_POOL)(text)


def add_program_options(parser: ArgumentParser) -> None:
    """The options of the program."""
    group = parser.add_argument_group("options of the program")
    for name, greatest, read, what in (
        ("--workers", 64, number(64), "the workers that work out a closure"),
        ("--max-goals", 20_000, number(20_000), "the goals that a closure may have"),
        ("--max-rules", 1_000_000, number(1_000_000), "the rules that a closure may have"),
        ("--pool", MAX_POOL, pool, "the terms that may count for a page"),
    ):
        group.add_argument(name, type=read, metavar="N", help=f"{what}, from 1 to {greatest:,}")


def options_of(given: Namespace) -> Options:
    """The options of the program that are given."""
    return Options(given.workers, given.max_goals, given.max_rules, given.pool)
