"""Folders and files with what they hold, and nothing else: neither when nor under which rights they were made."""

from __future__ import annotations

import gzip
import hashlib
import os
from pathlib import Path


def digest(file: Path) -> str:
    return hashlib.sha256(file.read_bytes()).hexdigest()


def files_below(folder: Path) -> list[Path]:
    """The files and links below a folder, in the order of their names."""
    return sorted(path for path in folder.rglob("*") if path.is_symlink() or path.is_file())


def normalise(folder: Path, seconds: int) -> None:
    """Gives all that is below a folder the same time, and rights that only say whether it can be run."""
    for path in [folder, *folder.rglob("*")]:
        if not path.is_symlink():
            path.chmod(0o755 if path.is_dir() or path.stat().st_mode & 0o100 else 0o644)
        os.utime(path, (seconds, seconds), follow_symlinks=False)


def write_packed(file: Path, text: bytes) -> None:
    """Writes a text packed by gzip, without a name or a time."""
    file.write_bytes(gzip.compress(text, 9, mtime=0))
