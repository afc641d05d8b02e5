"""Tests of tools/grammar-dot, which draws a grammar for Graphviz."""

from __future__ import annotations

import re
import subprocess
import sys
import unittest
from pathlib import Path

TOOL = Path(__file__).resolve().parents[3] / "tools/grammar-dot"
# B comes of a C by g, or of an E by f. E has no term. A comes of a B and a C.
REPLY = """yes
grammar 4 5
goal 0 rank 3 A
rule h 1 2
goal 1 rank 2 B
rule f 3
rule g 2
goal 2 rank 1 C
rule x
goal 3 empty E
rule e 3
done
"""


def run(given: str, *words: str) -> tuple[int, str, str]:
    ran = subprocess.run([sys.executable, str(TOOL), *words], input=given, capture_output=True, text=True)
    return ran.returncode, ran.stdout, ran.stderr


def drawn(graph: str) -> tuple[list[str], list[str]]:
    """The goals that are drawn, and the labels of the edges to rules."""
    return re.findall(r"^    (goal\d+) \[", graph, re.MULTILINE), re.findall(r"^    goal\d+ -> rule\w+ \[label=\"(\w+)\"", graph, re.MULTILINE)


class Graphs(unittest.TestCase):
    def graph(self, *words: str) -> str:
        status, graph, error = run(REPLY, *words)
        self.assertEqual((status, error), (0, ""))
        return graph

    def test_all_of_it(self) -> None:
        graph = self.graph()
        self.assertEqual(drawn(graph), (["goal0", "goal1", "goal2", "goal3"], ["h", "f", "g", "x", "e"]))
        self.assertIn('rule0_0 -> goal2 [label="2"]', graph)
        self.assertNotIn("rank=same", graph)

    def test_productive_goals_alone(self) -> None:
        self.assertEqual(drawn(self.graph("--productive")), (["goal0", "goal1", "goal2"], ["h", "g", "x"]))

    def test_goal_0_is_drawn_even_if_it_has_no_term(self) -> None:
        status, graph, _ = run("grammar 1 1\ngoal 0 empty A\nrule f 0\ndone\n", "--productive")
        self.assertEqual((status, drawn(graph)), (0, (["goal0"], [])))

    def test_some_goals_with_a_mark_where_more_follow(self) -> None:
        graph = self.graph("--most", "3")
        self.assertEqual(drawn(graph), (["goal0", "goal1", "goal2"], ["h", "g", "x"]))
        self.assertEqual(re.findall(r"more\d+ \[.*label=\"(.*)\"", graph), ["1 more"])
        self.assertIn("goal1 -> more1", graph)
        self.assertEqual(drawn(self.graph("--most", "1")), (["goal0"], []))
        self.assertEqual(self.graph("--most", "4"), self.graph())

    def test_levels_by_ranks(self) -> None:
        graph = self.graph("--ranks")
        self.assertEqual(re.findall(r"level\d \[.*label=\"(.*)\"", graph), ["rank 3", "rank 2", "rank 1", "no term"])
        self.assertIn("{ rank=same; level1; goal1 }", graph)
        self.assertIn("level2 -> level3 [style=invis", graph)


class Inputs(unittest.TestCase):
    def test_where_there_is_no_grammar_the_error_is_said(self) -> None:
        cases = {
            "error too-large\n": "error too-large", "refused 1 syntax 10\n": "refused 1 syntax 10",
            "yes\nerror syntax 9\nerror size\n": "error syntax 9", "": "standard input has no grammar", "yes\n": "standard input has no grammar",
            "grammar 1 1\ngoal 0 rank 1 A\n": "the grammar has no end",
        }
        for given, wanted in cases.items():
            self.assertEqual(run(given), (1, "", f"grammar-dot: {wanted}\n"))

    def test_an_error_before_a_grammar_is_of_another_query(self) -> None:
        self.assertEqual(run("error size\n" + REPLY), run(REPLY))

    def test_wrong_words(self) -> None:
        for words in (["--most", "0"], ["--most", "many"], ["--best"]):
            self.assertEqual(run(REPLY, *words)[0], 2)


if __name__ == "__main__":
    unittest.main()
