"""The wheel: the Python package with the program inside."""

from __future__ import annotations

import base64
import hashlib
import os
import re
import shutil
import subprocess
import sys
import tempfile
import time
import zipfile
from pathlib import Path

from releasing.commands import TOP, Missing, written_by
from releasing.origin import Origin
from releasing.program import Needs

PACKAGE = "clients/python"
BUILD = """
import sys
from setuptools import build_meta
print(build_meta.build_wheel(sys.argv[1], {"--build-option": ["--plat-name", sys.argv[2]]}))
"""


def wheel_name(version: str, needs: Needs) -> str:
    return f"clsynth-{version}-py3-none-{needs.platform()}.whl"


def write_wheel(program: Path, needs: Needs, origin: Origin, file: Path) -> None:
    """Writes the wheel with a program."""
    python = python_that_has("setuptools, wheel")
    with tempfile.TemporaryDirectory() as room:
        package = Path(room, "package")
        _copy_package(package)
        inside = package / "src/clsynth/bin/clsynth"
        inside.parent.mkdir()
        shutil.copy(program, inside)
        built = written_by([python, "-c", BUILD, room, needs.platform()], package).split()[-1]
        _write_normalised(Path(room, built), origin.seconds, file)


def python_that_has(modules: str) -> str:
    """A Python of 3.11 or later that can import these modules: this one, or that of the system. Raises `Missing` if neither can."""
    asked = f"import sys, {modules}; sys.exit(sys.version_info < (3, 11))"
    for python in (sys.executable, "/usr/bin/python3"):
        if os.access(python, os.X_OK) and subprocess.run([python, "-c", asked], capture_output=True).returncode == 0:
            return python
    raise Missing(f"no Python of 3.11 or later has {modules}: tools/people-setup installs one from Debian")


def _copy_package(folder: Path) -> None:
    """Copies the package without its tests. Files that Git ignores stay out."""
    listed = written_by(["git", "ls-files", "-z", "--cached", "--others", "--exclude-standard", PACKAGE])
    for name in filter(None, listed.split("\0")):
        place = Path(name).relative_to(PACKAGE)
        if place.parts[0] != "tests" and (TOP / name).is_file():
            (folder / place).parent.mkdir(parents=True, exist_ok=True)
            shutil.copy(TOP / name, folder / place)


def _write_normalised(built: Path, seconds: int, file: Path) -> None:
    """Writes a wheel again, with its files in order, one time for all, and as one that isn't for every platform."""
    with zipfile.ZipFile(built) as wheel:
        texts = {it.filename: (wheel.read(it), bool(it.external_attr >> 16 & 0o100)) for it in wheel.infolist()}
    record = next(name for name in texts if name.endswith(".dist-info/RECORD"))
    about = record.replace("RECORD", "WHEEL")
    texts[about] = re.sub(rb"(?m)^Root-Is-Purelib: true$", b"Root-Is-Purelib: false", texts[about][0]), False
    del texts[record]
    names = sorted(texts, key=lambda name: (".dist-info/" in name, name))
    rows = [f"{name},sha256={_sum(texts[name][0])},{len(texts[name][0])}\n" for name in names]
    texts[record] = "".join([*rows, f"{record},,\n"]).encode(), False
    with zipfile.ZipFile(file, "w", zipfile.ZIP_DEFLATED) as wheel:
        for name in [*names, record]:
            wheel.writestr(_entry(name, texts[name][1], seconds), texts[name][0])


def _sum(text: bytes) -> str:
    return base64.urlsafe_b64encode(hashlib.sha256(text).digest()).rstrip(b"=").decode()


def _entry(name: str, can_be_run: bool, seconds: int) -> zipfile.ZipInfo:
    entry = zipfile.ZipInfo(name, time.gmtime(seconds)[:6])
    entry.compress_type = zipfile.ZIP_DEFLATED
    entry.create_system = 3
    entry.external_attr = (0o100755 if can_be_run else 0o100644) << 16
    return entry
