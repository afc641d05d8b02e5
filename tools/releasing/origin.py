"""Where a release comes from: the version, the commit and the sources."""

from __future__ import annotations

import re
from dataclasses import dataclass

from releasing.commands import TOP, written_by

VERSION_FILE = "clients/python/src/clsynth/_version.py"
# Its sum is the digest of the sources: each file that is committed with the sum of what it holds.
LIST_OF_SOURCES = "git ls-files -z | LC_ALL=C sort -z | xargs -0 sha256sum"


@dataclass(frozen=True)
class Origin:
    version: str
    commit: str
    tree: str
    # When the commit was made, in seconds since 1970.
    seconds: int
    # The SHA-256 sum of the list of sources.
    sources: str


def version() -> str:
    """The version of these files. It stands in one place."""
    found = re.search(r'^__version__ = "(.*)"$', (TOP / VERSION_FILE).read_text(), re.MULTILINE)
    assert found, VERSION_FILE
    return found[1]


def origin() -> Origin:
    """Where a release of these files, as they are committed, comes from."""
    commit, tree, seconds = written_by(["git", "show", "-s", "--format=%H %T %ct", "HEAD"]).split()
    sources = written_by(["sh", "-c", f"{LIST_OF_SOURCES} | sha256sum"]).split()[0]
    return Origin(version(), commit, tree, int(seconds), sources)


def changed_files() -> list[str]:
    """The files that aren't as they are committed, or that aren't committed at all."""
    return [line[3:] for line in written_by(["git", "status", "--porcelain"]).splitlines()]
