"""Reads the tables of documents."""

from __future__ import annotations

import re

from support import SOURCES

TOP = SOURCES.parents[2]
LANGUAGE = (TOP / "docs/LANGUAGE.md").read_text()


def tables(head: str) -> list[list[str]]:
    """The first cells of each table of docs/LANGUAGE.md that begins with this head."""
    return [_first_cells(piece.split("\n")[1:]) for piece in LANGUAGE.split(f"\n{head}\n")[1:]]


def words(cells: list[str]) -> list[str]:
    """The words that stand as code in cells, without what stands behind each."""
    return [code.split(" ")[0] for code in codes(cells)]


def codes(cells: list[str]) -> list[str]:
    """What stands as code in cells."""
    return [code.replace("\\|", "|") for cell in cells for code in re.findall(r"`([^`]+)`", cell)]


def _first_cells(lines: list[str]) -> list[str]:
    end = next(place for place, line in enumerate(lines) if not line.startswith("|"))
    return [re.split(r"(?<!\\)\|", line)[1] for line in lines[:end]]
