"""The report of a release: where it comes from, what it needs, and what was proved of it."""

from __future__ import annotations

from releasing.commands import TOP
from releasing.gate import Gate
from releasing.laws import Group, all_groups
from releasing.origin import LIST_OF_SOURCES, Origin
from releasing.program import Needs
from releasing.tables import rows, section

REPORT = """\
# clsynth {origin.version}

docs/INSTALL.md of the sources says how the files are installed, and CHANGELOG.md what is new. `sha256sum -c SHA256SUMS` tests whether the
files are whole.

## Where it comes from

| | |
|---|---|
| Commit | `{origin.commit}` |
| Sources | `{origin.sources}` |
| Kit | `{gate.kit}` |
| Program | `{gate.program}` |

The sum of the sources is the SHA-256 sum of a list of all files, which this command prints in a clone of that commit:

    {list_of_sources} | sha256sum

The kit has proved and built the program. Any kit with the same sum of its logic serves to check the proofs. The sum of the program is
that of the file which the kit has built. In this release it stands without its table of symbols, which `strip` took away. What is loaded
when it runs is the same.

## What it needs

Linux on x86-64, with glibc {least} or later. Of the system the program takes {libraries}.
All else is inside. The kit has no other way to link a program, so there is none that is wholly static.

The wheel needs Python 3.11 or later too, and no other package.

## The gate

These are the last lines of the checks that passed on the sources:

    {lines}

`rt ci` proved {crates} crates, tests and programs among them, and had each of {edits} wrong bodies refused.

## What was proved: the program

The one call that the program makes, `run`, has a contract with these clauses. README.md of the sources says more, and what each crate
promises.

{clauses}

## What was proved: the laws

Each is a statement that holds whatever is given. docs/DEFINITIONS.md of the sources has the definitions that they speak of.

{laws}

## What is only tested

{tested}
## What is trusted

{trusted}"""


def report(origin: Origin, needs: Needs, gate: Gate) -> str:
    """The report on the program of this gate."""
    readme = (TOP / "README.md").read_text()
    return REPORT.format(
        origin=origin,
        gate=gate,
        least=needs.least(),
        libraries=" and ".join(f"`{library}`" for library in needs.libraries),
        list_of_sources=LIST_OF_SOURCES,
        lines="\n    ".join(gate.lines),
        crates=sum(":" in line for line in (TOP / "crates.txt").read_text().splitlines()),
        edits=len(list(TOP.glob("crates/*/must-fail/*.edit"))),
        clauses=_clauses(section(readme, "### The program: the clauses of `run`")),
        laws="\n\n".join(map(_laws, all_groups())),
        tested=section(readme, "## What is only tested"),
        trusted=section(readme, "## What is trusted"),
    )


def _clauses(text: str) -> str:
    return "\n".join(f"- {cells[0]}: {cells[1]}" for cells in rows(text))


def _laws(group: Group) -> str:
    return "\n".join([group.about, "", *(f"- `{law.crate}::{law.name}`: {law.says}" for law in group.laws)])
