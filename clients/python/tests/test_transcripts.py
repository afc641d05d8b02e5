"""Tests of how the replies of an output are told apart."""

from __future__ import annotations

import subprocess
import unittest

from support import PROGRAM

from clsynth.transcripts import Exchange, Fault, Input, exchanges

REPOSITORY = "comp x : A\ncomp f : A -> A\ntext f = done\\n{1}\\nterm x\nend\n"


def answered(queries: str) -> list[Exchange]:
    text = (REPOSITORY + queries).encode()
    return exchanges(text, subprocess.run([PROGRAM], input=text, stdout=subprocess.PIPE).stdout)


class Replies(unittest.TestCase):
    def test_each_query_gets_its_reply(self) -> None:
        queries = {
            "sub A <= A": ["yes"], "paths f": ["path A -> A", "done"], "typed f : A": ["no"], "inhabit B": ["uninhabited"],
            "list A max 2 take 1": ["term x", "more"], "list B max 2 take 1": ["done"], "grammar B": ["grammar 1 0", "goal 0 empty B", "done"],
            "certify A": ["inhabited", "row A by x 0 : 0", "qed"], "finite B": ["finite 0"], "finite A": ["infinite", "walk 0 by 1 at 0", "done"],
            "inhabit A ->": ["error syntax 12"], "batch A | B": ["inhabited", "uninhabited", "done"], "batch A |": ["error syntax 9"],
        }
        found = answered("\n# a comment\n\n".join(queries) + "\n")
        self.assertEqual([exchange.asked and exchange.asked.text for exchange in found], list(queries))
        self.assertEqual([[piece.decode() for piece in exchange.pieces] for exchange in found], list(queries.values()))
        self.assertEqual([exchange.asked and exchange.asked.line for exchange in found], list(range(5, 5 + 3 * len(queries), 3)))

    def test_texts_with_lines_that_look_like_replies(self) -> None:
        (page, last) = answered("texts A max 2 take 2\ninhabit A\n")
        self.assertEqual(page.pieces, (b"term x", b"text 1", b"x", b"term f(x)", b"text 13", b"done\nx\nterm x", b"done"))
        self.assertEqual(last.first, "inhabited")

    def test_certificates_belong_to_their_query(self) -> None:
        found = answered("verify A\nempty\n# qed\nmember A\nqed\nverify B\n")
        self.assertEqual([len(exchange.asked.lines) for exchange in found if exchange.asked], [5, 1])
        self.assertEqual([exchange.first for exchange in found], ["refused 1 unblocked", "error no-qed"])
        self.assertIsNotNone(found[0].refusal)
        self.assertEqual(found[1].error and found[1].error.word, "no-qed")

    def test_a_refusal(self) -> None:
        text = b"comp x : A\ncomp x : B\nend\ninhabit A\n"
        (refused,) = exchanges(text, b"refused 2 duplicate-component x\n")
        self.assertIsNone(refused.asked)
        self.assertEqual(refused.refusal, (2, Fault("duplicate-component", "x")))

    def test_an_output_that_ends_early(self) -> None:
        text = (REPOSITORY + "inhabit A\nlist A max 3 take 3\n").encode()
        self.assertEqual([it.first for it in exchanges(text, b"inhabited\nterm x\nterm f")], ["inhabited"])
        self.assertEqual(exchanges(text, b""), [])

    def test_what_was_written_is_kept(self) -> None:
        text = (REPOSITORY + "texts A max 3 take 5\ncertify A\nhello\n").encode()
        output = subprocess.run([PROGRAM], input=text, stdout=subprocess.PIPE).stdout
        self.assertEqual(b"".join(exchange.written() for exchange in exchanges(text, output)), output)

    def test_lines(self) -> None:
        given = Input(b"comp x : A\r\n end \r\ninhabit A")
        self.assertEqual((given.lines, given.end), ([b"comp x : A", b" end ", b"inhabit A"], 1))
        self.assertEqual(Input(b"comp end : A\n").repository, [b"comp end : A"])


if __name__ == "__main__":
    unittest.main()
