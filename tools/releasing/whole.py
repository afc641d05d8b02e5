"""A whole release: its files in a folder."""

from __future__ import annotations

import tempfile
from pathlib import Path

from releasing.debian import deb_name, write_deb
from releasing.gate import Gate
from releasing.origin import Origin
from releasing.program import needs, write_stripped
from releasing.report import report
from releasing.trees import digest, files_below
from releasing.wheels import wheel_name, write_wheel

REPORT = "RELEASE.md"
SUMS = "SHA256SUMS"


def program_name(version: str) -> str:
    return f"clsynth-{version}-linux-x86_64"


def write_release(built: Path, origin: Origin, gate: Gate, folder: Path) -> None:
    """Writes the files of a release of this program, which a gate has proved and built, into a folder."""
    program = folder / program_name(origin.version)
    write_stripped(built, program)
    needed = needs(program)
    with tempfile.TemporaryDirectory() as room:
        # Where packages have it, the program has its own name.
        named = Path(room, "clsynth")
        named.write_bytes(program.read_bytes())
        named.chmod(0o755)
        write_deb(named, needed, origin, folder / deb_name(origin.version))
        write_wheel(named, needed, origin, folder / wheel_name(origin.version, needed))
    (folder / REPORT).write_text(report(origin, needed, gate))
    sums = [f"{digest(file)}  {file.name}\n" for file in files_below(folder)]
    (folder / SUMS).write_text("".join(sums))


def differences(first: Path, second: Path) -> list[str]:
    """The files of two releases that aren't the same byte for byte, or that only one of them has."""
    one, other = ({file.name: file.read_bytes() for file in files_below(folder)} for folder in (first, second))
    return sorted(name for name in one.keys() | other.keys() if one.get(name) != other.get(name))
