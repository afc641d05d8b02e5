"""Tests of what is said of any input: inputs by chance go through the program, and what it writes is told apart and explained."""

from __future__ import annotations

import random
import subprocess
import unittest

from support import PROGRAM

from clsynth.diagnostics import Severity
from clsynth.explain import diagnose
from clsynth.lint import lint_input
from clsynth.transcripts import Exchange, Input, exchanges

START = ["comp x : A", "comp f : A -> A", "kind a = A", "end"]
LINES = [
    *START, "comp g : A & B -> $a", "kind b =", "sub A B", "sub B A", "variance A inv", "text x = {1} {", "text f = ({1})\\n", "cost x 300",
    "cost f 2", "inhabit A", "list A max 3 take 2", "texts A max 3 take 2 after x", "verify A", "empty", "member A", "block f 1", "layer", "set 0",
    "qed", "inhabited", "row A by x 0 : 0", "paths ff", "typed f(y) : A", "inhabit $a", "hello", "# c", "", "grammar A", "certify B", "finite A",
    "audit A", "list A max 0 take 1", "sub A <= B", "\ufeffcomp x : A", "inhabit é", "COMP z : A", "list A take 3",
]
OF_FORM = ("syntax", "reserved", "directive", "utf8")
"""The faults that lint finds too."""


def inputs(chance: random.Random, count: int) -> list[bytes]:
    """Lines by chance, most of them behind a repository that is in order."""
    made = []
    for _ in range(count):
        lines = [*(START if chance.random() < 0.6 else []), *chance.choices(LINES, k=chance.randrange(1, 14))]
        made.append("\n".join(lines).encode() + chance.choice((b"", b"\n", b"\n\xff\n")))
    return made


class Anything(unittest.TestCase):
    def test_each_reply_is_told_apart_and_explained(self) -> None:
        for text in inputs(random.Random(7), 150):
            output = subprocess.run([PROGRAM], input=text, stdout=subprocess.PIPE).stdout
            given, found = Input(text), exchanges(text, output)
            with self.subTest(text):
                self.assertEqual(b"".join(exchange.written() for exchange in found), output)
                for exchange in found:
                    is_wrong = exchange.error is not None or exchange.refusal is not None
                    diagnostic = diagnose(given, exchange)
                    self.assertEqual(diagnostic is not None, is_wrong)
                    self.assertTrue(diagnostic is None or diagnostic.shown("t.cls").startswith("t.cls:"))
                self.check_lint(given, found)

    def check_lint(self, given: Input, found: list[Exchange]) -> None:
        """Lint finds the faults of form that the program finds: the first one of the repository, or all of the queries."""
        told = {(it.line, it.words.split(":")[0]) for it in lint_input(given) if it.severity is Severity.ERROR}
        refusal = found[0].refusal if found and found[0].asked is None else None
        if refusal:
            number, fault = refusal
            self.assertTrue(fault.word not in OF_FORM or (number, fault.word) in told)
            return
        errors = {(it.asked.line, it.error.word) for it in found if it.asked and it.error and it.error.word in OF_FORM}
        self.assertEqual({it for it in told if it[0] > len(given.repository)}, errors)


if __name__ == "__main__":
    unittest.main()
