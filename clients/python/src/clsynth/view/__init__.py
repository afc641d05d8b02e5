"""A page for a browser that shows what is known of a type: its grammar, its terms, its certificate, and what is missing.

    with Session(repository) as session:
        Path("page.html").write_text(page_of(session, repository, "List(Int)"), encoding="utf-8")

The page is one file, which holds all that it shows. It asks nothing of a network. `cls view` writes it too.
"""

from __future__ import annotations

import html
import json
from importlib import resources

from clsynth.repository import Repository
from clsynth.session import Session
from clsynth.types import TypeLike
from clsynth.view.content import content_of

__all__ = ["page_of"]


def page_of(session: Session, repository: Repository, goal: TypeLike, name: str = "") -> str:
    """The page of a type. The session's repository is `repository`, which the page calls `name`."""
    content = json.dumps(content_of(session, repository, goal, name), ensure_ascii=False, separators=(",", ":"))
    # In JSON these characters stand in texts alone, where they may be written so. Then no text ends the script that it stands in.
    for character in "<>&":
        content = content.replace(character, f"\\u{ord(character):04x}")
    template = resources.files(__package__).joinpath("template.html").read_text(encoding="utf-8")
    head, _, tail = template.replace("{{title}}", html.escape(f"{goal} - clsynth"), 1).partition("{{content}}")
    return f"{head}{content}{tail}"
