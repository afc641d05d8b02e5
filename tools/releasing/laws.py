"""The laws: those that are proved, and what docs/DEFINITIONS.md says of each."""

from __future__ import annotations

import re
from collections.abc import Iterator
from dataclasses import dataclass
from pathlib import Path

from releasing.commands import TOP, Refusal
from releasing.tables import rows, section

DOCUMENT = "docs/DEFINITIONS.md"


@dataclass(frozen=True)
class Law:
    crate: str
    name: str
    # In words.
    says: str


@dataclass(frozen=True)
class Group:
    """Laws of some crates, with what holds of all of them."""

    about: str
    laws: tuple[Law, ...]


def proved_laws() -> dict[str, list[str]]:
    """The names of the laws of each crate, as its code has them."""
    files = sorted(TOP.glob("crates/*/src/laws.rt"))
    return {file.parents[1].name: re.findall(r"^pub fn (\w+)", file.read_text(), re.MULTILINE) for file in files}


def groups(text: str, proved: dict[str, list[str]]) -> list[Group]:
    """The laws as a document has them. Raises `Refusal` if they aren't those that are proved."""
    found = list(_groups(section(text, "## The laws"), proved))
    told = {(law.crate, law.name) for group in found for law in group.laws}
    wanted = {(crate, name) for crate, names in proved.items() for name in names}
    if told != wanted:
        odd = ", ".join(f"{crate}::{name}" for crate, name in sorted(told ^ wanted))
        raise Refusal(f"the laws of {DOCUMENT} aren't those of crates/*/src/laws.rt: {odd}")
    return found


def _groups(text: str, proved: dict[str, list[str]]) -> Iterator[Group]:
    """Each group is a paragraph that begins with the names of crates, and a table."""
    for piece in re.split(r"\n\n(?=`cls_)", text)[1:]:
        about, _, table = piece.partition("\n\n")
        crates = re.findall(r"`(cls_\w+)`", about.partition(" statement")[0])
        yield Group(about.replace("\n", " "), tuple(_law(crates, cells, proved) for cells in rows(table + "\n")))


def _law(crates: list[str], cells: list[str], proved: dict[str, list[str]]) -> Law:
    name = cells[0].strip("`")
    crate = next((crate for crate in crates if name in proved.get(crate, [])), crates[0])
    return Law(crate, name, cells[1])


def all_groups() -> list[Group]:
    return groups(Path(TOP, DOCUMENT).read_text(), proved_laws())
