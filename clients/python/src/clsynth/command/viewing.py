"""`cls view`: a page for a browser."""

from __future__ import annotations

import sys
from argparse import Namespace
from pathlib import Path

from clsynth.command.asking import session_of
from clsynth.command.sources import repository_in
from clsynth.repository import Repository
from clsynth.view import page_of

__all__ = ["write_page"]


def write_page(given: Namespace) -> int:
    """Writes the page of the type. Where something goes wrong, a file of before is kept."""
    text = repository_in(given)
    with session_of(given, text) as session:
        page = page_of(session, Repository.parse(text), given.type, Path(given.repository).name)
    if given.output is None:
        sys.stdout.write(page)
    else:
        Path(given.output).write_text(page, encoding="utf-8")
    return 0
