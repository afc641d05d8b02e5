"""Where a line of each form is wrong: cut after each token, with other words in place of each, and with one token too many.

So the rows tell whether the faults of forms stand where the language puts them. What is wanted comes from marks, set by hand under each
token of a line. A mark says what else may stand there:

    w   nothing but this token
    n   another name; `omega` is reserved
    a   `omega` too
    c   `omega` too, but then the next token can't follow
    d   another number

A capital letter means the same, under a token after which the line may end. `R` means what `W` does, and anything may follow.
"""

from __future__ import annotations

import re
from collections.abc import Iterator
from dataclasses import dataclass

from row import REFUSED, Row

DIRECTIVES = [
    (
        "sub a b",
        "w   n N",
    ),
    (
        "variance a inv",
        "w        n W",
    ),
    (
        "kind a = b | c ( omega ) * d -> ( e & f ) | omega",
        "w    n W A w C w a     W w A w  c a w a W w A",
    ),
    (
        "comp f : $ a -> a ( $ b ) & c",
        "w    n w c N w  C w c n W w A",
    ),
    (
        "text f =",
        "w    n R",
    ),
    (
        "cost f 3",
        "w    n D",
    ),
    (
        "filter F accepts p q",
        "w      n w       N N",
    ),
    (
        "leaf F x -> none",
        "w    n n w  N",
    ),
    (
        "app F p _ -> q",
        "w   n n n w  N",
    ),
    (
        "other F p",
        "w     n N",
    ),
    (
        "end",
        "W",
    ),
]

QUERIES = [
    (
        "sub a -> b <= ( c ) * omega",
        "w   a w  a w  c a W w A",
    ),
    (
        "paths f",
        "w     N",
    ),
    (
        "typed f ( x , g ( y ) ) : a",
        "w     n w n w n w n w w w A",
    ),
    (
        "inhabit a & b",
        "w       A w A",
    ),
    (
        "batch a | b ( c ) & omega | d",
        "w     A w C w a W w A     w A",
    ),
    (
        "grammar a",
        "w       A",
    ),
    (
        "audit ( a )",
        "w     c a W",
    ),
    (
        "certify c ( omega )",
        "w       C w a     W",
    ),
    (
        "verify a",
        "w      A",
    ),
    (
        "finite a",
        "w      A",
    ),
    (
        "list a -> b max 2 take 3",
        "w    a w  a w   d w    D",
    ),
    (
        "texts ( a ) max 2 take 3 after f ( x )",
        "w     c a w w   d w    D w     N w n W",
    ),
    (
        "filtered F a * b max 2 take 3 after x",
        "w        n a w a w   d w    D w     N",
    ),
    (
        "add f : $ a -> a ( $ b ) & c",
        "w   n w c N w  C w c n W w A",
    ),
    (
        "drop f",
        "w    N",
    ),
]

# Words that stand in place of a token. The last one is too long for a name.
OTHER_WORDS = ["omega", "7", "=", "n" * 49]

OF_ITS_FORM = "of its form"
FAULT_OF_FORM = re.compile(r"(?:refused 1|error) ((?:syntax|reserved) \d+)\n")

# A query that stands behind each of the queries of a session, so that its error parts their replies.
MARKER = "paths marker"
MARKER_REPLY = b"error unknown marker\n"


@dataclass(frozen=True)
class Token:
    text: str
    start: int
    mark: str


def rows() -> Iterator[Row]:
    for line, marks in DIRECTIVES:
        for told, fault in told_lines(tokens(line, marks), is_directive=True):
            yield directive_row(told, fault)
    for line, marks in QUERIES:
        yield session_row(line, list(told_lines(tokens(line, marks), is_directive=False)))


def tokens(line: str, marks: str) -> list[Token]:
    return [Token(found[0], found.start(), marks[found.start()]) for found in re.finditer(r"\S+", line)]


def told_lines(line: list[Token], is_directive: bool) -> Iterator[tuple[str, str]]:
    """Lines near the line, each with its fault or that it is of its form. A repository's line keeps its first word: another one is no directive."""
    for place, token in enumerate(line):
        for word in OTHER_WORDS:
            if word != token.text and (place > 0 or not is_directive):
                yield text_of(line[:place]) + f"{word} " + text_of(line[place + 1 :]), fault_of_word(token, word)
        yield from told_ends(text_of(line[: place + 1]), token.mark)


def text_of(line: list[Token]) -> str:
    """The tokens with a blank behind each."""
    return "".join(f"{token.text} " for token in line)


def fault_of_word(token: Token, word: str) -> str:
    """What is wrong with a line that has this word in place of the token, by the token's mark."""
    mark = token.mark.lower()
    if (mark, word) in {("a", "omega"), ("d", "7")}:
        return OF_ITS_FORM
    if (mark, word) == ("c", "omega"):
        return f"syntax {token.start + len('omega ')}"
    return f"reserved {token.start}" if (mark, word) == ("n", "omega") else f"syntax {token.start}"


def told_ends(front: str, mark: str) -> Iterator[tuple[str, str]]:
    """The line that ends behind a token with this mark and, if it may end there, the line with a `)` more."""
    too_early = f"syntax {len(front)}"
    if mark.islower():
        yield front, too_early
        return
    yield front, OF_ITS_FORM
    if mark != "R":
        yield f"{front})", too_early


def directive_row(line: str, fault: str) -> Row:
    """The line alone is the input: where it is of its form and isn't `end`, that is missing or what the line says is at fault."""
    status = 0 if line == "end " and fault == OF_ITS_FORM else REFUSED
    return Row(f"forms/{line}", f"{line}\n".encode(), fault.encode(), status, seen=fault_of_reply)


def fault_of_reply(reply: bytes) -> bytes:
    fault = FAULT_OF_FORM.match(reply.decode())
    return (fault[1] if fault else OF_ITS_FORM).encode()


def session_row(form: str, told: list[tuple[str, str]]) -> Row:
    """All lines near one of a query, in one session without components."""
    given = "end\n" + "".join(asked(line) for line, _ in told)
    lines = [line for line, _ in told]

    def seen(output: bytes) -> bytes:
        replies = output.split(MARKER_REPLY)
        if len(replies) != len(lines) + 1:
            return output
        return verdicts(lines, [fault_of_reply(reply).decode() for reply in replies[:-1]])

    return Row(f"forms/{form}", given.encode(), verdicts(lines, [fault for _, fault in told]), seen=seen)


def asked(line: str) -> str:
    """The query, with the end of the certificate that it opens if it does, and the marker."""
    end = "qed\n" if line.startswith("verify ") else ""
    return f"{line}\n{end}{MARKER}\n"


def verdicts(lines: list[str], faults: list[str]) -> bytes:
    return "".join(f"{line}: {fault}\n" for line, fault in zip(lines, faults)).encode()
