"""The tokens of a line, and the lines of an input, as docs/LANGUAGE.md has them."""

from __future__ import annotations

import re
from dataclasses import dataclass

from clsynth.limits import MAX_LINE_BYTES, MAX_NAME_BYTES

__all__ = [
    "BLANKS", "Token", "byte_of", "bytes_of", "can_be_read", "character_of", "first_word", "is_alone", "is_skipped", "lines_of", "text_of",
    "tokens_of",
]

_TOKEN = re.compile(r"(?P<name>[A-Za-z_][A-Za-z0-9_]*)|(?P<number>[0-9]+)|(?P<sign>->|<=|[&*(),$:=|])|(?P<bad>[^ \t\r])", re.ASCII)
_FIRST = re.compile(r"[ \t\r]*([A-Za-z_][A-Za-z0-9_]*)", re.ASCII)

BLANKS = " \t\r"
"""The characters that part tokens."""


@dataclass(frozen=True)
class Token:
    """A token of a line. `kind` is `name`, `number`, `sign` or `bad`, and `place` the character at which it begins."""

    kind: str
    text: str
    place: int


def tokens_of(line: str) -> list[Token]:
    """The tokens of a line from left to right."""
    return [_token(found) for found in _TOKEN.finditer(line)]


def lines_of(text: bytes) -> list[bytes]:
    """The lines of an input without their endings."""
    pieces = text.split(b"\n")
    if not pieces[-1]:
        pieces.pop()
    return [piece.removesuffix(b"\r") for piece in pieces]


def text_of(line: bytes) -> str:
    """The characters of a line. A byte that isn't UTF-8 is a character of its own, which stands for nothing else."""
    return line.decode(errors="surrogateescape")


def bytes_of(text: str) -> bytes:
    """The bytes of the text, of which `text_of` made it. Of what isn't UTF-8 in another way some bytes are made that aren't either."""
    try:
        return text.encode(errors="surrogateescape")
    except UnicodeEncodeError:
        return text.encode(errors="surrogatepass")


def byte_of(line: str, character: int) -> int:
    """The byte of the line at which the character begins."""
    return len(bytes_of(line[:character]))


def character_of(line: str, byte: int) -> int:
    """The character of the line at which the byte stands."""
    return len(text_of(bytes_of(line)[:byte]))


def can_be_read(line: bytes) -> bool:
    """Whether it is short enough, and UTF-8."""
    try:
        line.decode()
    except UnicodeDecodeError:
        return False
    return len(line) <= MAX_LINE_BYTES


def is_skipped(line: bytes) -> bool:
    """Whether the line says nothing: it has blanks alone, or is a comment."""
    return line.lstrip(BLANKS.encode())[:1] in (b"", b"#") and can_be_read(line)


def first_word(line: bytes) -> str:
    """The first token, if it is a name and the line can be read, and otherwise an empty text."""
    found = _FIRST.match(text_of(line)) if can_be_read(line) else None
    return found[1] if found and len(found[1]) <= MAX_NAME_BYTES else ""


def is_alone(line: bytes, word: str) -> bool:
    """Whether the word is the only token of the line."""
    return line.strip(BLANKS.encode()) == word.encode()


def _token(found: re.Match[str]) -> Token:
    kind = found.lastgroup or "bad"
    is_long = kind == "name" and len(found[0]) > MAX_NAME_BYTES
    return Token("bad" if is_long else kind, found[0], found.start())
