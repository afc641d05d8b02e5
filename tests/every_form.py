"""A short session with a line of each form that there is, and the reply to each of its queries, worked out by the rules of the language.

It is what faults are tried on: cuts after each byte, reads and writes that fail, and refused allocations.
"""

from __future__ import annotations

import re
from typing import NamedTuple

WORDS = ("--pool", "5")

REPOSITORY = b"""\
# a comment
sub Nat Int
variance Sink contra
variance Ref inv
kind a = Nat | Str
comp x : Nat
comp f : $a -> List($a)
comp g : List(Int) -> Nat
text f = [{1}]
cost g 2
filter plain accepts Q
leaf plain g -> none
app plain Q _ -> Q
other plain Q
end
"""


class Asked(NamedTuple):
    """A query, with its certificate if it has one, and its reply. W stands for the number of the worker in a history."""

    lines: bytes
    reply: bytes


SESSION = [
    Asked(b"sub Sink(Int) <= Sink(Nat)\n", b"yes\n"),
    Asked(b"sub Ref(Nat) <= Ref(Int)\n", b"no\n"),
    Asked(b"paths f\n", b"path Nat -> List(Nat)\npath Str -> List(Str)\ndone\n"),
    Asked(b"# a comment\n", b""),
    Asked(b"typed f(x) : List(Int)\n", b"yes\n"),
    Asked(b"inhabit Str\n", b"uninhabited\n"),
    Asked(b"batch Nat | List(Str) | Nat\n", b"inhabited\nuninhabited\ninhabited\ndone\n"),
    Asked(b"list Nat max 4 take 2\n", b"term x\nterm g(f(x))\ndone\n"),
    Asked(b"list Nat max 4 take 1 after x\n", b"term g(f(x))\ndone\n"),
    Asked(b"texts List(Nat) max 2 take 1\n", b"term f(x)\ntext 3\n[x]\ndone\n"),
    Asked(b"filtered plain Nat max 4 take 2\n", b"term x\ndone\n"),
    Asked(b"filtered plain List(Nat) max 2 take 1 after x\n", b"term f(x)\ndone\n"),
    Asked(b"grammar List(Int)\n", b"grammar 2 3\ngoal 0 rank 2 List(Int)\nrule f 1\ngoal 1 rank 1 Nat\nrule x\nrule g 0\ndone\n"),
    Asked(b"audit Str\n", b"claim W 0\nfile W 0\ndone\n"),
    Asked(b"certify List(Nat)\n", b"inhabited\nrow Nat by x 0 : 0\nrow List(Nat) by f 1 : 0\nqed\n"),
    Asked(b"certify List(Str)\n", b"empty\nmember List(Str)\nblock f 1\nlayer\nset 1\nmember Str\nqed\n"),
    Asked(b"verify Int\ninhabited\nrow Nat by x 0 : 0\nqed\n", b"accepted\n"),
    Asked(b"verify List(Str)\nempty\nmember List(Str)\nblock f 1\nlayer\nset 1\nmember Str\nqed\n", b"accepted\n"),
    Asked(b"verify Str\nempty\nqed\n", b"refused 0 goal\n"),
    Asked(b"verify Str\nempty\nhello\nqed\n", b"error certificate 2\n"),
    Asked(b"finite Str\n", b"finite 0\n"),
    Asked(b"finite Nat\n", b"infinite\nwalk 0 by 1 at 0\nwalk 1 by 0 at 0\ndone\n"),
    Asked(b"list omega max 2 take 9\n", b"error too-many-terms\n"),
    Asked(b"inhabit\n", b"error syntax 7\n"),
    Asked(b"typed h(x) : Nat\n", b"error token 6\n"),
    Asked(b"filtered g Nat max 4 take 2\n", b"error unknown g\n"),
    Asked(b"add h : Nat -> Str\n", b"added\n"),
    Asked(b"add x : Str\n", b"error duplicate x\n"),
    Asked(b"add k : $b\n", b"error refused variable b\n"),
    Asked(b"list Str max 5 take 1\n", b"term h(x)\nmore\n"),
    Asked(b"drop g\n", b"dropped\n"),
    Asked(b"drop g\n", b"error unknown g\n"),
    Asked(b"list Str max 5 take 1\n", b"term h(x)\ndone\n"),
]

INPUT = REPOSITORY + b"".join(asked.lines for asked in SESSION)
OUTPUT = b"".join(asked.reply for asked in SESSION)

STEP = re.compile(rb"^(claim|file) \d", re.MULTILINE)


def seen(output: bytes) -> bytes:
    """The output with W for the number of the worker in a history. The words allow for numbers of one digit."""
    return STEP.sub(rb"\1 W", output)


def answered(length: int) -> tuple[bytes, bytes]:
    """The replies to the queries that are whole in so many bytes, each line with its line feed, and what stands behind these queries."""
    replies, end = b"", len(REPOSITORY)
    for asked in SESSION:
        if end + len(asked.lines) > length:
            break
        replies += asked.reply
        end += len(asked.lines)
    return replies, INPUT[end:length]
