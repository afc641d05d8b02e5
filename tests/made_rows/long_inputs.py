"""Inputs and lines that are as long as may be, and longer ones."""

from __future__ import annotations

from collections.abc import Iterator
from typing import NamedTuple

from row import REFUSED, TOO_LONG, Row

MAX_INPUT_BYTES = 1_048_576
MAX_LINE_BYTES = 65_536
MAX_READ_BYTES = 4_096

COMPARED = b"end\nsub A <= A\n"
LISTED = b"comp x : A\nend\nlist omega max 1 take 1\n"
QUERY = b"list omega max 1 take 1"


class Padded(NamedTuple):
    """The lines that an input begins with and those that it ends with, with comments between them."""

    name: str
    head: bytes
    tail: bytes
    wanted: bytes
    status: int


LONGEST = [
    Padded("a_comparison", COMPARED, b"", b"yes\n", 0),
    Padded("a_page", LISTED, b"", b"term x\ndone\n", 0),
    Padded("comments", b"end\n", b"", b"", 0),
    Padded("a_last_query", b"end\n", QUERY, b"done\n", 0),
]

LONGER = [
    Padded("a_comparison", COMPARED, b"", b"yes\n", TOO_LONG),
    Padded("a_page", LISTED, b"", b"term x\ndone\n", TOO_LONG),
    Padded("comments", b"end\n", b"", b"", TOO_LONG),
    Padded("a_query_that_ends_in_time", b"end\n", QUERY + b"\n#", b"done\n", TOO_LONG),
    Padded("a_query_that_ends_too_late", b"end\n", QUERY + b"\n", b"", TOO_LONG),
    Padded("an_end_too_late", b"comp x : A\n", b"end\n", b"", TOO_LONG),
    Padded("no_end", b"comp x : A\n", b"", b"", TOO_LONG),
    Padded("a_fault", b"comp x : A\nwrong\n", b"", b"refused 2 directive\n", REFUSED),
    Padded("a_fault_too_late", b"comp x : A\n", b"wrong\n", b"", TOO_LONG),
]


def rows() -> Iterator[Row]:
    yield from (padded(it, MAX_INPUT_BYTES) for it in LONGEST)
    yield from (padded(it, MAX_INPUT_BYTES + 1) for it in LONGER)
    yield padded(Padded("a_page", LISTED, b"", b"term x\ndone\n", TOO_LONG), 2 * MAX_INPUT_BYTES)
    yield from long_last_lines()
    yield from long_lines()
    yield from across_two_reads()


def padded(it: Padded, length: int) -> Row:
    """The input of this length. Its comments have one byte each, but for the first one where the number of bytes is odd."""
    fill = length - len(it.head) - len(it.tail)
    comments = b"#" * (fill % 2) + b"#\n" * (fill // 2)
    return Row(f"limits/{length}_bytes_with_{it.name}", it.head + comments + it.tail, it.wanted, it.status)


def long_last_lines() -> Iterator[Row]:
    """What is over the greatest length lies in one line."""
    for name, head, wanted in (("no_query", b"end\n", b""), ("a_page", LISTED, b"term x\ndone\n")):
        given = head.ljust(MAX_INPUT_BYTES + 1, b"#")
        yield Row(f"limits/long_last_line_behind_{name}", given, wanted, TOO_LONG)


def long_lines() -> Iterator[Row]:
    longest = b"#" * MAX_LINE_BYTES
    listed = b"list omega max 1 take 1\n"
    page = b"term x\ndone\n"
    yield Row("limits/longest_comment", b"comp x : A\n" + longest + b"\nend\n" + listed, page)
    yield Row("limits/longest_comment_before_a_carriage_return", b"comp x : A\n" + longest + b"\r\nend\n" + listed, page)
    yield Row("limits/comment_too_long_between_queries", b"comp x : A\nend\n" + longest + b"#\n" + listed, b"error long\n" + page)
    yield Row("limits/query_too_long", b"end\n" + b"inhabit A".ljust(MAX_LINE_BYTES + 1) + b"\n", b"error long\n")
    yield Row("limits/longest_query", b"end\n" + b"inhabit A".ljust(MAX_LINE_BYTES) + b"\n", b"uninhabited\n")
    yield Row("limits/comment_too_long_before_end", b"comp x : A\n" + longest + b"#\nend\n", b"refused 2 long\n", REFUSED)
    yield Row("limits/last_comment_too_long", b"comp x : A\n" + longest + b"#", b"refused 2 long\n", REFUSED)


def across_two_reads() -> Iterator[Row]:
    """Two bytes that belong together, the first of which is the last one of a read."""
    before = b"end\n".ljust(MAX_READ_BYTES - 1, b"#")
    for name, together in (("character", "é".encode() + b"\n"), ("line_ending", b"\r\n")):
        yield Row(f"lines/{name}_across_two_reads", before + together + COMPARED.removeprefix(b"end\n"), b"yes\n")
