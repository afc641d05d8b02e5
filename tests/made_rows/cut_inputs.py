"""Inputs that end after any of their bytes."""

from __future__ import annotations

import re
from collections.abc import Callable, Iterator
from dataclasses import replace

import every_form
from row import REFUSED, Row, stored

FIRST_EXAMPLE = b"comp x : A\ncomp y : B\nend\nlist omega max 2 take 10\n"
SIX_TERMS = "term x\nterm y\nterm x(x)\nterm x(y)\nterm y(x)\nterm y(y)\ndone\n"

# The first example, cut after the first number of bytes up to the second one: what is written, and the status.
CUTS = [
    # No line, and no `end`.
    (0, 0, "refused 0 no-end\n", REFUSED),
    # `c`, `co` and `com` begin no form.
    (1, 3, "refused 1 directive\n", REFUSED),
    # The first line is whole.
    (10, 11, "refused 1 no-end\n", REFUSED),
    (12, 14, "refused 2 directive\n", REFUSED),
    # The second is.
    (21, 22, "refused 2 no-end\n", REFUSED),
    # `e` and `en` begin no form.
    (23, 24, "refused 3 directive\n", REFUSED),
    # `end` needs no line feed.
    (25, 26, "", 0),
    # `l`, `li` and `lis` begin no query.
    (27, 29, "error syntax 0\n", 0),
    # `m` and `ma` aren't `max`, and `t`, `ta` and `tak` aren't `take`.
    (38, 39, "error syntax 11\n", 0),
    (44, 46, "error syntax 17\n", 0),
    # `list omega max 2 take 1` is a query too.
    (49, 49, "term x\nmore\n", 0),
    (50, 51, SIX_TERMS, 0),
]

# Cuts by which a line ends too early: what is written before the place, the length of the line at the first of the cuts, and the status.
EARLY_CUTS = [
    (4, 9, "refused 1 syntax", 4, REFUSED),
    (15, 20, "refused 2 syntax", 4, REFUSED),
    (30, 37, "error syntax", 4, 0),
    (40, 43, "error syntax", 14, 0),
    (47, 48, "error syntax", 21, 0),
]

# A library of lists with a query of 36 bytes, and its reply.
LISTS = "templates/sorted_lists"

# The query, cut in the same way: what is written, where a line that ends too early is at fault at its own length.
QUERY_CUTS = [
    (0, 0, ""),
    (1, 4, "error syntax 0\n"),
    (5, 23, "error syntax {length}\n"),
    (24, 25, "error syntax 23\n"),
    (26, 29, "error syntax {length}\n"),
    (30, 32, "error syntax 29\n"),
    (33, 34, "error syntax {length}\n"),
]

# The last line of a reply to the front of a query, and the whole of such a reply. No front is answered `inhabited` alone.
LAST_LINE = rb"(?:error .*|yes|no|uninhabited|done|more|qed|finite \d+|added|dropped)\n"
ONE_REPLY = re.compile(rb"(?:(?:un)?inhabited\n)+done\n|(?:(?!" + LAST_LINE + rb").*\n)*" + LAST_LINE)
SOME_REPLY = b"some reply\n"


def rows() -> Iterator[Row]:
    yield from cuts_of_the_first_example()
    yield from cuts_of_a_repository("a_library", library_and_query()[0])
    yield from cuts_of_a_query()
    yield from cuts_of_a_repository("every_form", every_form.REPOSITORY)
    yield from cuts_of_every_query()


def cuts_of_the_first_example() -> Iterator[Row]:
    for first, last, wanted, status in CUTS:
        for length in range(first, last + 1):
            yield first_bytes(length, wanted, status)
    for first, last, words, line_length, status in EARLY_CUTS:
        for length in range(first, last + 1):
            yield first_bytes(length, f"{words} {line_length + length - first}\n", status)


def first_bytes(length: int, wanted: str, status: int) -> Row:
    return Row(f"ends/first_{length}_bytes_of_the_first_example", FIRST_EXAMPLE[:length], wanted.encode(), status)


def cuts_of_a_repository(name: str, repository: bytes) -> Iterator[Row]:
    """Its line `end` isn't whole. If the last line is, `end` is missing, and else that line has a fault of some kind or is whole too."""
    for length in range(len(repository) - 1):
        front = repository[:length]
        row = f"ends/first_{length}_bytes_of_{name}"
        lines = len(front.splitlines())
        if not front or front.endswith(b"\n"):
            yield Row(row, front, f"refused {lines} no-end\n".encode(), REFUSED)
        else:
            yield Row(row, front, f"refused {lines}".encode(), REFUSED, seen=refused_line)


def refused_line(output: bytes) -> bytes:
    """The refusal without its words."""
    return b" ".join(output.split(b" ")[:2])


def cuts_of_a_query() -> Iterator[Row]:
    library, query = library_and_query()
    reply = stored(LISTS, ".out").decode()
    for first, last, text in [*QUERY_CUTS, (len(query) - 1, len(query), reply)]:
        for length in range(first, last + 1):
            wanted = text.format(length=length)
            yield Row(f"ends/first_{length}_bytes_of_a_query", library + query[:length], wanted.encode())


def library_and_query() -> tuple[bytes, bytes]:
    library, end, query = stored(LISTS, ".in").partition(b"\nend\n")
    return library + end, query


def cuts_of_every_query() -> Iterator[Row]:
    """The whole queries have their replies. One that lacks its line feed alone has its own, and the front of one has some reply."""
    for length in range(len(every_form.REPOSITORY), len(every_form.INPUT) + 1):
        replies, rest = every_form.answered(length)
        row = Row(f"ends/first_{length}_bytes_of_every_form", every_form.INPUT[:length], replies, 0, every_form.WORDS, every_form.seen)
        if not rest or rest.startswith(b"#"):
            yield row
        elif every_form.answered(length + 1)[1]:
            yield replace(row, wanted=replies + SOME_REPLY, seen=some_reply_behind(replies))
        else:
            yield replace(row, wanted=every_form.answered(length + 1)[0])


def some_reply_behind(replies: bytes) -> Callable[[bytes], bytes]:
    def seen(output: bytes) -> bytes:
        text = every_form.seen(output)
        last = text.removeprefix(replies)
        return replies + SOME_REPLY if text.startswith(replies) and ONE_REPLY.fullmatch(last) else text

    return seen
