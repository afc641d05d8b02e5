"""Certificates, as the program prints and reads them."""

from __future__ import annotations

from collections.abc import Iterable, Iterator
from dataclasses import dataclass

__all__ = ["Block", "Certificate", "Empty", "Inhabited", "Member", "Row", "parse_certificate"]


@dataclass(frozen=True)
class Row:
    """Says that a type has a term: the component, applied to terms of earlier rows, by the arrows at these positions."""

    type: str
    component: str
    argument_count: int
    positions: tuple[int, ...]


@dataclass(frozen=True)
class Block:
    """Why no term of a member is the component with so many arguments. A layer has the sets for one path of the member."""

    component: str
    argument_count: int
    layers: tuple[tuple[tuple[int, ...], ...], ...]


@dataclass(frozen=True)
class Member:
    """A type that no term has, with its blocks."""

    type: str
    blocks: tuple[Block, ...]


@dataclass(frozen=True)
class Inhabited:
    """A certificate that some term has a type."""

    rows: tuple[Row, ...]

    def lines(self) -> list[str]:
        """As the program reads it, with `qed` as the last line."""
        rows = [_words(f"row {row.type} by {row.component} {row.argument_count} :", row.positions) for row in self.rows]
        return ["inhabited", *rows, "qed"]

    def _repr_html_(self) -> str:
        from clsynth.html import certificate_html
        return certificate_html(self)


@dataclass(frozen=True)
class Empty:
    """A certificate that no term has a type."""

    members: tuple[Member, ...]

    def lines(self) -> list[str]:
        """As the program reads it, with `qed` as the last line."""
        return ["empty", *(line for member in self.members for line in _member_lines(member)), "qed"]

    def _repr_html_(self) -> str:
        from clsynth.html import certificate_html
        return certificate_html(self)


Certificate = Inhabited | Empty
"""What shows that some term has a type, or that none has."""


def parse_certificate(lines: Iterable[str]) -> Certificate:
    """The certificate that these lines say, as `certify` writes them. `qed` may be left out."""
    first, *rest = lines
    if first == "inhabited":
        return Inhabited(tuple(_row(line) for line in rest if line != "qed"))
    return Empty(_members(rest))


def _member_lines(member: Member) -> Iterator[str]:
    yield f"member {member.type}"
    for block in member.blocks:
        yield f"block {block.component} {block.argument_count}"
        for layer in block.layers:
            yield "layer"
            yield from (_words("set", positions) for positions in layer)


def _words(start: str, numbers: Iterable[int]) -> str:
    return " ".join([start, *map(str, numbers)])


def _numbers(words: str) -> tuple[int, ...]:
    return tuple(map(int, words.split()))


def _row(line: str) -> Row:
    head, _, positions = line.partition(" :")
    goal, _, component, count = head.removeprefix("row ").rsplit(" ", 3)
    return Row(goal, component, int(count), _numbers(positions))


def _members(lines: Iterable[str]) -> tuple[Member, ...]:
    """Each member takes the blocks, layers and sets that stand under it."""
    members: list[tuple[str, list[tuple[str, int, list[list[tuple[int, ...]]]]]]] = []
    for line in lines:
        word, _, rest = line.partition(" ")
        if word == "member":
            members.append((rest, []))
        elif word == "block":
            component, count = rest.split(" ")
            members[-1][1].append((component, int(count), []))
        elif word == "layer":
            members[-1][1][-1][2].append([])
        elif word == "set":
            members[-1][1][-1][2][-1].append(_numbers(rest))
    return tuple(Member(goal, tuple(Block(name, n, tuple(map(tuple, layers))) for name, n, layers in blocks)) for goal, blocks in members)
