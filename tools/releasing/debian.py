"""The package for Debian: the program, its manual page, and completions."""

from __future__ import annotations

import hashlib
import tempfile
from datetime import datetime, timezone
from email.utils import format_datetime
from pathlib import Path

from releasing.commands import TOP, written_by
from releasing.origin import Origin
from releasing.program import Needs
from releasing.trees import files_below, normalise, write_packed

AUTHORS = "the clsynth authors <clsynth@localhost>"
CONTROL = """\
Package: clsynth
Version: {version}-1
Architecture: amd64
Maintainer: {authors}
Installed-Size: {size}
Depends: {packages}
Section: devel
Priority: optional
Description: put typed components together to terms of a type
 clsynth reads a repository of typed components, and answers which
 applications of these components to one another have a given type. Types are
 intersection types. The program is proved.
"""
CHANGES = """\
clsynth ({version}-1) unstable; urgency=medium

  * Release {version}. changelog.gz says what is new.

 -- {authors}  {date}
"""


def deb_name(version: str) -> str:
    return f"clsynth_{version}-1_amd64.deb"


def write_deb(program: Path, needs: Needs, origin: Origin, file: Path) -> None:
    """Writes the package with a program."""
    with tempfile.TemporaryDirectory() as room:
        root = Path(room, "root")
        written_by([TOP / "tools/install", root / "usr", program])
        _fit_to_debian(root / "usr/share")
        _write_documents(root / "usr/share/doc/clsynth", origin)
        _write_control(root, needs, origin.version)
        normalise(root, origin.seconds)
        # One thread packs the same on each machine.
        environment = {"SOURCE_DATE_EPOCH": str(origin.seconds), "DPKG_DEB_THREADS_MAX": "1"}
        written_by(["dpkg-deb", "--root-owner-group", "-Zxz", "--build", root, file], environment=environment)


def _fit_to_debian(share: Path) -> None:
    """Packs the manual page, and puts the completion for zsh where Debian has that of packages."""
    manual = share / "man/man1/clsynth.1"
    write_packed(manual.with_name("clsynth.1.gz"), manual.read_bytes())
    manual.unlink()
    (share / "zsh/site-functions").rename(share / "zsh/vendor-completions")


def _write_documents(folder: Path, origin: Origin) -> None:
    folder.mkdir(parents=True)
    date = format_datetime(datetime.fromtimestamp(origin.seconds, timezone.utc))
    changes = CHANGES.format(version=origin.version, authors=AUTHORS, date=date)
    (folder / "copyright").write_text((TOP / "LICENSE").read_text() + "\n" + (TOP / "NOTICES").read_text())
    write_packed(folder / "changelog.gz", (TOP / "CHANGELOG.md").read_bytes())
    write_packed(folder / "changelog.Debian.gz", changes.encode())


def _write_control(root: Path, needs: Needs, version: str) -> None:
    files = [path for path in files_below(root) if not path.is_symlink()]
    size = sum(-(-path.stat().st_size // 1024) for path in files)
    sums = [f"{hashlib.md5(path.read_bytes()).hexdigest()}  {path.relative_to(root)}\n" for path in files]
    (root / "DEBIAN").mkdir()
    (root / "DEBIAN/md5sums").write_text("".join(sums))
    told = CONTROL.format(version=version, authors=AUTHORS, size=size, packages=needs.packages())
    (root / "DEBIAN/control").write_text(told)
