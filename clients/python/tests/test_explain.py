"""Tests of what is said of refusals and errors."""

from __future__ import annotations

import re
import subprocess
import unittest

from documents import LANGUAGE, tables, words
from support import ONCE, PROGRAM, session

from clsynth.errors import QueryError, RepositoryRefused
from clsynth.explain import explain, explain_error
from clsynth.explanations import ERRORS, REASONS, REFUSALS

CHAIN = "comp x : A\ncomp f : A -> A\nend\n"


def told(text: str) -> str:
    """What is said of the program's output for the text."""
    return explain(text, subprocess.run([PROGRAM], input=text.encode(), stdout=subprocess.PIPE).stdout.decode(), "t.cls")


class Tables(unittest.TestCase):
    def test_each_word_of_the_language_is_explained(self) -> None:
        of_lines, of_queries = tables("| Words | When |")
        (of_the_whole,) = tables("| Words | When | LINE |")
        self.assertEqual([*words(of_lines), *words(of_the_whole), "no-end"], list(REFUSALS))
        self.assertEqual(words(of_queries), list(ERRORS))
        reasons = [cells for head in ("| Reason | The test of a row |", "| Reason | The test of a member |") for cells in tables(head)]
        self.assertEqual([word for cells in reasons for word in words(cells)] + ["goal"], list(REASONS))

    def test_each_word_that_stands_elsewhere_in_it_is_explained(self) -> None:
        shown = re.findall(r"^(?:error|refused \d+) ([a-z0-9-]+)|`(?:error|refused \d+) ([a-z0-9-]+)", LANGUAGE, re.MULTILINE)
        found = {block or code for block, code in shown}
        self.assertIn("too-many-terms", found)
        self.assertLessEqual(found, {*REFUSALS, *ERRORS, *REASONS})

    def test_each_has_a_sentence(self) -> None:
        for explanations in (REFUSALS, ERRORS, REASONS):
            for word, explanation in explanations.items():
                with self.subTest(word):
                    self.assertTrue(explanation.says)
                    self.assertFalse(explanation.says.endswith("."))
                    self.assertTrue(not explanation.remedy or explanation.remedy.endswith("."))


class Shown(unittest.TestCase):
    def test_a_place_with_what_could_stand_there(self) -> None:
        self.assertEqual(told(CHAIN + "inhabit A &\n"), """\
t.cls:4:12: error: syntax: from here on the line fits no form
    inhabit A &
               ^
    Here may stand a type.
    The line has the form `inhabit TYPE`.""")

    def test_each_error_of_a_session(self) -> None:
        lines = told(CHAIN + "# a comment\ninhabit A ->\nlist A max 2 take 1\nverify A\nempty\nhello\nqed\npaths g\n").split("\n")
        self.assertEqual([line.split(" error")[0] for line in lines if " error: " in line], ["t.cls:5:13:", "t.cls:9:1:", "t.cls:11:7:"])

    def test_nothing_is_said_where_nothing_is_wrong(self) -> None:
        self.assertEqual(told(CHAIN + "list A max 3 take 10\ntexts A max 2 take 1\ncertify A\nfinite A\n"), "")

    def test_the_caret_of_a_long_line(self) -> None:
        line = "inhabit " + "A & " * 100 + "& B" + " & B" * 100
        first, shown, caret, *_ = told(CHAIN + line + "\n").split("\n")
        self.assertEqual(first.split(" ")[0], "t.cls:4:409:")
        self.assertTrue(shown.startswith("    ...") and shown.endswith("..."))
        self.assertEqual(shown[caret.index("^") :][:3], "& B")

    def test_characters_of_several_bytes(self) -> None:
        first, shown, caret, *_ = told("comp x : A\ntext x = ääää { \nend\n").split("\n")
        self.assertEqual(first.split(" ")[0], "t.cls:2:15:")
        self.assertEqual(shown[caret.index("^")], "{")


class Remedies(unittest.TestCase):
    def test_refusals(self) -> None:
        cases = {
            "\ufeffcomp x : A\nend\n": "byte order mark",
            "COMP x : A\nend\n": "Did you mean `comp`?",
            "comp x : A\nlist A max 3 take 1\n": "Put the line `end` before the first query.",
            "comp x : A\ntext x = f() { return 1; }\nend\n": "written `{{` or `}}`",
            "comp x : A\ncost x 256\nend\n": "from 1 to 255",
            "comp x : A\n": "Put the line `end`",
            "comp x : A\ncomp x : B\nend\n": "Line 1 says it first.",
            "text y = z\ncomp y : A\nend\n": "declared later, in line 2",
            "sub A B\nsub C A\nsub B C\nend\n": "Line 3 says that `B` is below `C`.",
            "sub A B\nvariance A inv\nend\n": "`A` is invariant, and `B` is covariant.",
            "kind abc = A\ncomp x : $abd\nend\n": "Did you mean `abc`?",
            "comp x : Map(A, B)\nend\n": "Two are a product: `Map(A * B)`.",
            "comp to-upper : A\nend\n": "A name has letters of ASCII, digits and `_`",
            "comp x : A # no\nend\n": "A comment has a line to itself.",
            "sub A <= B\nend\n": "Before `end` it is `sub A B`.",
            f"comp x : {'A' * 49}\nend\n": "at most 48 bytes, and this one has 49",
            "comp x : A | B\nend\n": "`kind` line alone",
            "comp x : $b\nend\n": "`kind b = A | B`",
            "comp x : A\nfilter once accepts N\nleaf onc x -> N\nend\n": "Did you mean `once`?",
            "other once N\nfilter once accepts N\nend\n": "declared later, in line 2",
            "filter once accepts N\nfilter once accepts M\nend\n": "Line 1 says it first.",
            "filter f accepts none\nend\n": "Here may stand a name of a state.",
            f"filter f accepts {' '.join(f'Q{number}' for number in range(17))}\nend\n": "Take one state for what may stand in the same places.",
        }
        for text, wanted in cases.items():
            with self.subTest(text):
                self.assertIn(wanted, told(text))

    def test_errors(self) -> None:
        cases = {
            "inhabitt A": "Did you mean `inhabit`?",
            "comp y : B": "Put it before the line `end`.",
            "list A take 3 max 5": "`list TYPE max N take K [after TERM]`",
            "list A max 5 take 0": "`take` takes 1 to 10,000",
            "batch " + " | ".join(["A"] * 65): "`batch` takes at most 64 types.",
            "batch A | & B": "The line has the form `batch TYPE | TYPE ..`.",
            "list A & max 5 take 1": "The type before `max` isn't complete",
            "inhabit $a": "Write the type that is meant.",
            "filtered A max 3 take 1": "`filtered F TYPE max N take K [after TERM]`",
            "add x A": "`add NAME : TYPE`",
            "verify A\nempty": "Put the line `qed`",
            "verify A\nempty\ninhabit A\nqed": "`inhabit` begins a query. Put the line `qed` before it",
            "verify A\nempty\nmember A\nqed": "Add the member or the set",
            "verify A\nempty\nmembr A\nqed": "Did you mean `member`?",
        }
        for query, wanted in cases.items():
            with self.subTest(query):
                self.assertIn(wanted, told(CHAIN + query + "\n"))

    def test_the_place_of_a_number_that_is_out_of_range(self) -> None:
        for query, place in {"list A max 1025 take 1": 12, "list A max 007 take 10001": 21, "list A max 0 take 0": 12}.items():
            with self.subTest(query):
                self.assertIn(f"t.cls:4:{place}: ", told(CHAIN + query + "\n"))

    def test_names_that_are_meant(self) -> None:
        text = "comp names : A\nend\npaths nmaes\ntyped nams : A\n"
        self.assertEqual(told(text).count("Did you mean `names`?"), 2)
        self.assertIn("Did you mean `once`?", told(ONCE + "end\nfiltered oncee A max 3 take 1\n"))

    def test_bounds(self) -> None:
        text = CHAIN + "list A max 64 take 60\n"
        output = "error too-many-terms\n"
        self.assertIn("`--pool N` allows more, up to 1,000,000.", explain(text, output))
        self.assertIn("`--max-goals`", explain(CHAIN + "inhabit A\n", "error too-large\n"))
        self.assertIn("`--max-rules` (up to 1,000,000)", explain(ONCE + "end\nfiltered once A max 3 take 9\n", "error filter-large\n"))
        wide = explain(CHAIN + "inhabit A\n", "error wide St(A * B)\n")
        self.assertIn("`St(A * B)` can be met in more than 1,024 ways", wide)
        self.assertIn("`variance St inv`", wide)


class Exceptions(unittest.TestCase):
    def test_errors_of_a_session(self) -> None:
        with session(CHAIN) as chain:
            with self.assertRaises(QueryError) as query:
                chain.paths("ff")
            self.assertIn("1:7: error: unknown: nothing that may stand here has the name `ff`", explain_error(query.exception, CHAIN, "query"))
        with self.assertRaises(RepositoryRefused) as refused:
            session("comp x A")
        self.assertIn("input:1:8: error: syntax", explain_error(refused.exception, "comp x A"))


if __name__ == "__main__":
    unittest.main()
