"""Pages, grammars and certificates as tables for a notebook, which asks a value for its `_repr_html_`."""

from __future__ import annotations

from collections.abc import Iterable, Sequence
from html import escape
from typing import Any

from clsynth.certificates import Certificate, Empty, Inhabited
from clsynth.grammars import Grammar, Rule
from clsynth.replies import Page, TermText

__all__ = ["MOST_ROWS", "certificate_html", "grammar_html", "page_html"]

MOST_ROWS = 100
"""How many rows of a table are shown."""


def page_html(page: Page[Any]) -> str:
    """The terms of a page, with their texts if it has some."""
    has_texts = any(isinstance(entry, TermText) for entry in page.entries)
    rows = ((str(number), *_entry_cells(entry)) for number, entry in enumerate(page.entries[:MOST_ROWS], 1))
    note = "Further terms follow." if page.more else "The listing ends here."
    return _table(("", "Term", "Text") if has_texts else ("", "Term"), rows, len(page.entries), note)


def grammar_html(grammar: Grammar) -> str:
    """The goals of a grammar with their rules: each a component with the numbers of its argument goals."""
    rows = (
        (str(number), _code(goal.type), "no term" if goal.rank is None else str(goal.rank), "<br>".join(map(_rule, goal.rules)))
        for number, goal in enumerate(grammar.goals[:MOST_ROWS])
    )
    return _table(("Goal", "Type", "Rank", "Rules"), rows, len(grammar.goals), "")


def certificate_html(certificate: Certificate) -> str:
    """The rows of a certificate, or its members with the lines under each."""
    if isinstance(certificate, Inhabited):
        rows = (
            (str(number), _code(row.type), _code(row.component), str(row.argument_count), " ".join(map(str, row.positions)))
            for number, row in enumerate(certificate.rows[:MOST_ROWS], 1)
        )
        return _table(("Row", "Type", "Component", "Arguments", "Arrows"), rows, len(certificate.rows), "Some term has the type.")
    members = (
        (str(number), _code(member.type), "<br>".join(map(_code, Empty((member,)).lines()[2:-1])))
        for number, member in enumerate(certificate.members[:MOST_ROWS], 1)
    )
    return _table(("Member", "Type", "Blocks"), members, len(certificate.members), "No term has the type.")


def _entry_cells(entry: object) -> tuple[str, ...]:
    if not isinstance(entry, TermText):
        return (_code(str(entry)),)
    return _code(str(entry.term)), "a text of over 65,536 bytes" if entry.text is None else f"<pre>{escape(entry.text)}</pre>"


def _rule(rule: Rule) -> str:
    return _code(" ".join([rule.component or "any", *map(str, rule.arguments)]))


def _code(text: str) -> str:
    return f"<code>{escape(text)}</code>"


def _table(heads: Sequence[str], rows: Iterable[Sequence[str]], count: int, note: str) -> str:
    """A table, with what it leaves out under it. The cells are HTML."""
    head = "".join(f"<th>{head}</th>" for head in heads)
    body = "".join("<tr>" + "".join(f'<td style="text-align: left">{cell}</td>' for cell in row) + "</tr>" for row in rows)
    left_out = f"{count - MOST_ROWS:,} rows more aren't shown." if count > MOST_ROWS else ""
    told = " ".join(filter(None, (left_out, note)))
    return f"<table><thead><tr>{head}</tr></thead><tbody>{body}</tbody></table>" + (f"<p>{told}</p>" if told else "")
