"""Tests of the tables that a notebook shows."""

from __future__ import annotations

import unittest

from support import CHAIN, session

from clsynth import Empty, Goal, Grammar, Inhabited, Member, Page, Row, Rule, Term, TermText
from clsynth.html import MOST_ROWS, certificate_html, grammar_html, page_html

CELL = '<td style="text-align: left">'


def row(*cells: str) -> str:
    return "<tr>" + "".join(f"{CELL}{cell}</td>" for cell in cells) + "</tr>"


def table(heads: list[str], *rows: str) -> str:
    return f"<table><thead><tr>{''.join(f'<th>{head}</th>' for head in heads)}</tr></thead><tbody>{''.join(rows)}</tbody></table>"


class Tables(unittest.TestCase):
    def test_a_page_of_terms(self) -> None:
        shown = page_html(Page([Term("x"), Term("f", (Term("x"),))], True))
        wanted = table(["", "Term"], row("1", "<code>x</code>"), row("2", "<code>f(x)</code>"))
        self.assertEqual(shown, wanted + "<p>Further terms follow.</p>")

    def test_texts_are_escaped(self) -> None:
        shown = page_html(Page([TermText(Term("x"), '<b>"&'), TermText(Term("y"), None)], False))
        self.assertEqual(
            shown,
            table(
                ["", "Term", "Text"], row("1", "<code>x</code>", "<pre>&lt;b&gt;&quot;&amp;</pre>"),
                row("2", "<code>y</code>", "a text of over 65,536 bytes"),
            ) + "<p>The listing ends here.</p>",
        )

    def test_long_tables_say_what_they_leave_out(self) -> None:
        shown = page_html(Page([Term("x")] * (MOST_ROWS + 1_234), False))
        self.assertEqual(shown.count("<tr>"), MOST_ROWS + 1)
        self.assertIn("<p>1,234 rows more aren't shown. The listing ends here.</p>", shown)

    def test_a_grammar(self) -> None:
        grammar = Grammar((Goal("A -> B", 2, (Rule("f", (1, 0)), Rule(None, (1, 1)))), Goal("C", None, ())))
        self.assertEqual(grammar_html(grammar), table(
            ["Goal", "Type", "Rank", "Rules"],
            row("0", "<code>A -&gt; B</code>", "2", "<code>f 1 0</code><br><code>any 1 1</code>"), row("1", "<code>C</code>", "no term", ""),
        ))

    def test_certificates(self) -> None:
        inhabited = Inhabited((Row("A", "f", 1, (0, 2)),))
        wanted = table(["Row", "Type", "Component", "Arguments", "Arrows"], row("1", "<code>A</code>", "<code>f</code>", "1", "0 2"))
        self.assertEqual(certificate_html(inhabited), wanted + "<p>Some term has the type.</p>")
        empty = Empty((Member("B", ()),))
        wanted = table(["Member", "Type", "Blocks"], row("1", "<code>B</code>", ""))
        self.assertEqual(certificate_html(empty), wanted + "<p>No term has the type.</p>")

    def test_values_of_a_session_show_themselves(self) -> None:
        with session(CHAIN) as chain:
            self.assertIn("<code>f(x)</code>", chain.page("A", 2)._repr_html_())
            self.assertIn("<code>f 0</code>", chain.grammar("A")._repr_html_())
            self.assertIn("Some term has the type.", chain.certify("A")._repr_html_())
            # The one member B has no block: no component leads to it.
            self.assertEqual(chain.certify("B")._repr_html_(), certificate_html(Empty((Member("B", ()),))))


if __name__ == "__main__":
    unittest.main()
