"""The program of a release: without what only a debugger reads, and what it needs of the system that runs it."""

from __future__ import annotations

import re
import tempfile
from dataclasses import dataclass
from pathlib import Path

from releasing.commands import Refusal, written_by

# The libraries of the C library, with the packages of Debian that have them.
PACKAGES = {"libc.so.6": "libc6", "libm.so.6": "libc6", "ld-linux-x86-64.so.2": "libc6", "libgcc_s.so.1": "libgcc-s1"}
MACHINE = "Advanced Micro Devices X86-64"


@dataclass(frozen=True)
class Needs:
    libraries: tuple[str, ...]
    # The least version of glibc, the C library, that has all that is called.
    glibc: tuple[int, int]

    def packages(self) -> str:
        """What a package of Debian depends on, as its control file says it."""
        names = sorted({PACKAGES[library] for library in self.libraries})
        return ", ".join(f"{name} (>= {self.least()})" if name == "libc6" else name for name in names)

    def least(self) -> str:
        return ".".join(map(str, self.glibc))

    def platform(self) -> str:
        """How wheels name the platforms that have it."""
        return f"manylinux_{self.glibc[0]}_{self.glibc[1]}_x86_64"


def write_stripped(program: Path, stripped: Path) -> None:
    """Writes a program without its table of symbols. What is loaded when it runs stays as it is."""
    written_by(["strip", "--strip-all", "-o", stripped, program])
    stripped.chmod(0o755)
    if _loaded(stripped) != _loaded(program):
        raise Refusal(f"strip changed what is loaded of {program}")


def _loaded(program: Path) -> bytes:
    with tempfile.TemporaryDirectory() as room:
        image = Path(room, "image")
        written_by(["objcopy", "-O", "binary", program, image])
        return image.read_bytes()


def needs(program: Path) -> Needs:
    return read_needs(written_by(["readelf", "-W", "-h", "-d", "-V", program]))


def read_needs(told: str) -> Needs:
    """What `readelf` told of a program. Raises `Refusal` if it needs more than the C library, or something else than x86-64."""
    libraries = tuple(re.findall(r"\(NEEDED\) +Shared library: \[(.*)\]", told))
    versions = [(int(major), int(minor)) for major, minor in re.findall(r"Name: GLIBC_(\d+)\.(\d+)", told)]
    if MACHINE not in told:
        raise Refusal("the program isn't one for x86-64")
    if foreign := [library for library in libraries if library not in PACKAGES]:
        raise Refusal(f"the program needs {', '.join(foreign)} beside the C library")
    if not versions:
        raise Refusal("the program doesn't say which glibc it needs")
    return Needs(libraries, max(versions))
