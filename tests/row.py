"""Rows: whole runs of the program, each with what it is given and what comes of it. tests/README.md says how their files are written."""

from __future__ import annotations

import re
from collections.abc import Callable, Iterator
from dataclasses import dataclass, replace
from pathlib import Path

STORED = Path(__file__).resolve().parent / "rows"
NEEDED_PARTS = {".in", ".out", ".status"}
OTHER_PARTS = {".words", ".audit"}

# Statuses, beside 0.
ASKED_FOR_NOTHING = 1
REFUSED = 2
TOO_LONG = 6

STEP = re.compile(rb"^(claim|file) (\d+) ", re.MULTILINE)


class RowFault(Exception):
    """Files that are no row."""


def as_written(output: bytes) -> bytes:
    return output


@dataclass(frozen=True)
class Row:
    """A run: the words and the input that the program is given, what it writes, and with which status it ends.

    `seen` makes of the output what is compared with `wanted`.
    """

    name: str
    given: bytes
    wanted: bytes
    status: int = 0
    words: tuple[str, ...] = ()
    seen: Callable[[bytes], bytes] = as_written


def stored_rows() -> tuple[list[Row], list[str]]:
    """The rows that stand in files, and what is wrong with files that are no row."""
    rows: list[Row] = []
    faults: list[str] = []
    for name, parts in stored_parts().items():
        try:
            rows.extend(read_row(name, parts))
        except RowFault as fault:
            faults.append(str(fault))
    return rows, faults


def stored_parts() -> dict[str, set[str]]:
    """The name of each row, with the suffixes of its files."""
    parts: dict[str, set[str]] = {}
    for path in sorted(STORED.rglob("*")):
        if path.is_file():
            parts.setdefault(str(path.relative_to(STORED).with_suffix("")), set()).add(path.suffix)
    return parts


def read_row(name: str, parts: set[str]) -> Iterator[Row]:
    """The row, and the same with one worker and with eight where its words leave the number open and queries are answered."""
    for part in sorted(parts - NEEDED_PARTS - OTHER_PARTS):
        raise RowFault(f"{name}{part} is no part of a row")
    for part in sorted(NEEDED_PARTS - parts):
        raise RowFault(f"{name}{part} is missing")
    seen = one_worker(number(name, ".audit", "one N")) if ".audit" in parts else as_written
    words = tuple(stored(name, ".words").decode().splitlines()) if ".words" in parts else ()
    row = Row(name, stored(name, ".in"), stored(name, ".out"), number(name, ".status", "N"), words, seen)
    yield row
    if row.status == 0 and seen is as_written and "--workers" not in words:
        for workers in ("1", "8"):
            yield replace(row, name=f"{name} --workers {workers}", words=("--workers", workers, *words))


def stored(name: str, part: str) -> bytes:
    return (STORED / f"{name}{part}").read_bytes()


def number(name: str, part: str, form: str) -> int:
    """The number N of a file of this form."""
    found = re.fullmatch(form.replace("N", r"(\d+)") + "\n?", stored(name, part).decode(errors="replace"))
    if not found:
        raise RowFault(f"{name}{part} isn't of the form {form}")
    return int(found[1])


def one_worker(greatest: int) -> Callable[[bytes], bytes]:
    """Writes W for the number of the worker in a history, if it is one number and at most the greatest."""

    def seen(output: bytes) -> bytes:
        workers = {int(step[2]) for step in STEP.finditer(output)}
        is_right = len(workers) == 1 and max(workers) <= greatest
        return STEP.sub(rb"\1 W ", output) if is_right else output

    return seen
