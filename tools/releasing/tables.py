"""Sections and tables of the documents."""

from __future__ import annotations

import re

TABLE = re.compile(r"^\|.*\n\|---.*\n((?:\|.*\n)+)", re.MULTILINE)


def section(text: str, head: str) -> str:
    """What stands under a heading, up to the next one of its level or of a higher one."""
    marks = head.split(" ")[0]
    behind = text.split(f"\n{head}\n", 1)[1]
    return re.split(rf"^#{{1,{len(marks)}}} ", behind, maxsplit=1, flags=re.MULTILINE)[0].strip() + "\n"


def rows(text: str) -> list[list[str]]:
    """The cells of the rows of all tables, without their heads."""
    lines = [line for table in TABLE.findall(text) for line in table.splitlines()]
    return [[cell.strip() for cell in re.split(r"(?<!\\)\|", line)[1:-1]] for line in lines]
