"""Tests of the page in a browser. test_view_browser.py runs them by a Python that has selenium."""

from __future__ import annotations

import tempfile
import unittest
from pathlib import Path

from browser import Browser, Keys, browser
from support import LISTS, session

from clsynth import Repository, view

SHOP = """
comp network : Up(Network)
comp database : Up(Network) -> Up(Config) -> Up(Database)
comp config : Up(Database) -> Up(Config)
comp shop : Up(Database) -> Up(Network) -> Up(Shop)
"""
MISSPELT = "comp x : Int\ncomp f : Imt -> B\ncomp g : A -> Int -> B\ncomp h : B -> A\n"
SCRIPT = '<img src="x" onerror="window.wrong = 1"></script><script>window.wrong = 1</script>'
SIDE = 30


def maze() -> str:
    """A board of 900 places without walls: a rank for each step from its corner, and moves to and fro."""
    moves = {"right": (1, 0), "left": (-1, 0), "down": (0, 1), "up": (0, -1)}
    lines = ["comp start : P0_0"]
    for name, (right, down) in moves.items():
        places = [(x, y, x + right, y + down) for x in range(SIDE) for y in range(SIDE)]
        steps = [f"P{x}_{y} -> P{u}_{v}" for x, y, u, v in places if u in range(SIDE) and v in range(SIDE)]
        lines += [f"kind {name} = {' | '.join(steps)}", f"comp {name} : ${name}"]
    return "\n".join(lines) + "\n"


class InBrowser(unittest.TestCase):
    page: Browser
    folder: Path

    @classmethod
    def setUpClass(cls) -> None:
        cls.page = cls.enterClassContext(browser())
        cls.folder = Path(cls.enterClassContext(tempfile.TemporaryDirectory()))

    def tearDown(self) -> None:
        self.assertEqual(self.page.complaints(), [])

    def show(self, repository: str, goal: str, is_dark: bool = False, **options: int) -> None:
        file = self.folder / "page.html"
        with session(repository, **options) as asked:
            file.write_text(view.page_of(asked, Repository.parse(repository), goal, "some.cls"), encoding="utf-8")
        self.page.open(file, is_dark=is_dark)

    def boxes(self) -> list[str]:
        return [text.replace("\n", " ") for text in self.page.texts(".head")]


class GrammarOfAPage(InBrowser):
    def test_it_begins_with_goal_0_and_opens_by_clicks(self) -> None:
        self.show(LISTS, "List(Int) & Desc")
        self.assertEqual(self.boxes(), ["0 Desc & List(Int) rank 3 · 1 rule", "1 Asc & List(Int) rank 2 · 3 rules"])
        self.assertEqual(self.page.texts(".level h2"), ["rank 3", "rank 2"])
        self.assertEqual(self.page.text("#count"), "2 of 4 goals")
        self.page.click("#goal-1 .head")
        self.assertEqual(self.page.texts(".level h2"), ["rank 3", "rank 2", "rank 1", "no term"])
        self.assertEqual(self.page.texts("#goal-1 .rules code"), ["sort", "sort", "rev"])
        self.assertEqual(self.page.texts("#goal-1 .rules button"), ["2", "3", "0"])
        self.assertEqual(self.page.run("return document.querySelectorAll('#edges > path').length"), 4)
        self.page.click("#goal-1 .head")
        self.assertEqual(len(self.boxes()), 2)

    def test_the_panel_tells_the_rules_with_their_types(self) -> None:
        self.show(LISTS, "List(Int) & Desc")
        self.page.click("#goal-0 .rules button")
        self.assertEqual(self.page.text("#details h2"), "Goal 1")
        self.assertEqual(self.page.texts("#details .chip"), ["2: List(Int)", "3: List(Int) & List(Str) (no term)", "0: Desc & List(Int)"])
        self.assertIn("List($a) -> List($a) & Asc", self.page.texts("#details .type"))
        self.assertIn("$a = Int | Str", self.page.texts("#details .type"))
        self.page.click("#details .chip")
        self.assertEqual(self.page.text("#details h2"), "Goal 2")
        self.page.click("#details button")
        self.assertEqual(self.boxes(), ["2 List(Int) rank 1 · 3 rules"])

    def test_no_edge_leads_through_a_box(self) -> None:
        self.show(LISTS, "List(Int) & Desc")
        self.page.click("#goal-1 .head")
        hit = """const box = document.getElementById("goal-2").getBoundingClientRect();
            const svg = document.getElementById("edges").getBoundingClientRect();
            return [...document.querySelectorAll("#edges > path.none")].some((path) => [...Array(200).keys()].some((step) => {
              const at = path.getPointAtLength(path.getTotalLength() * step / 199);
              const [x, y] = [at.x + svg.left, at.y + svg.top];
              return box.left < x && x < box.right && box.top < y && y < box.bottom; }))"""
        self.assertFalse(self.page.run(hit))

    def test_the_keyboard_does_what_clicks_do(self) -> None:
        self.show(LISTS, "List(Int) & Desc")
        self.page.run("document.querySelector('#goal-0 .head').focus()")
        self.page.press(Keys.ARROW_RIGHT)
        self.page.press(Keys.ENTER)
        self.assertEqual(self.page.text("#count"), "4 of 4 goals")
        label = "return document.activeElement.getAttribute('aria-label') + ', ' + document.activeElement.getAttribute('aria-expanded')"
        self.assertEqual(self.page.run(label), "Goal 1: Asc & List(Int), rank 2 · 3 rules, true")
        self.page.press(Keys.ARROW_LEFT)
        self.assertTrue(self.page.run(label).startswith("Goal 0: "))

    def test_900_goals_open_at_once_and_never_more_than_200_are_drawn(self) -> None:
        self.show(maze(), f"P{SIDE - 1}_{SIDE - 1}")
        self.assertEqual(self.page.text("#count"), "3 of 900 goals")
        # The goals of rank 59 - k are the k + 1 places that are k steps away from the last one.
        self.page.run("for (let goal = 0; goal < 900; goal++) graph.shown.set(goal, 10); drawGraph();")
        self.assertEqual(self.page.text("#count"), "200 of 900 goals")
        self.assertEqual(self.page.run("return document.querySelectorAll('.box').length"), 200)
        self.assertIn("200 boxes are drawn", self.page.text("#cut"))

    def test_many_rules_are_shown_some_at_a_time(self) -> None:
        self.show("".join(f"comp x{number} : A\n" for number in range(25)), "A")
        self.assertEqual(len(self.page.texts("#goal-0 .rules code")), 10)
        self.page.click("#goal-0 .rules button")
        self.page.click("#goal-0 .rules button")
        self.assertEqual(self.page.texts("#goal-0 .rules code"), [f"x{number}" for number in range(25)])
        self.assertEqual(self.page.texts("#goal-0 .rules button"), [])

    def test_where_there_is_no_grammar_the_error_stands(self) -> None:
        self.show(SHOP, "Up(Shop)", max_goals=2)
        for part in ("grammar", "terms", "certificate", "missing"):
            self.page.click(f"#tab-{part}")
            self.assertIn("error too-large", self.page.text(f"#{part} .warning"))


class OtherPartsOfAPage(InBrowser):
    def test_terms_page_by_page(self) -> None:
        self.show(LISTS, "List(Int) & Desc")
        self.page.click("#tab-terms")
        self.assertIn("the first 200 terms. Others follow", self.page.text("#terms > p"))
        self.assertEqual(self.page.texts("#term-rows tr:first-child td"), ["1", "3", "rev(sort(input))", "sorted(xs)\n  .reversed()"])
        self.assertEqual(self.page.text(".pages span"), "Page 1 of 10")
        self.page.click(".pages button:last-child")
        self.assertEqual(self.page.text(".pages span"), "Page 2 of 10")
        self.assertEqual(self.page.text("#term-rows td"), "21")

    def test_texts_stand_only_where_there_are_some(self) -> None:
        self.show("comp x : A\n", "A")
        self.page.click("#tab-terms")
        self.assertEqual(self.page.texts("#terms td"), ["1", "1", "x"])
        self.assertIn("the one term of at most 64 components and of a size up to 1,024.", self.page.text("#terms > p"))

    def test_nothing_that_is_shown_is_read_as_html(self) -> None:
        self.show(f"comp x : A\ntext x = {SCRIPT}\n", "A", is_dark=True)
        self.page.click("#tab-terms")
        self.assertEqual(self.page.text("#terms pre"), SCRIPT)
        self.assertIsNone(self.page.run("return window.wrong ?? null"))

    def test_a_certificate_is_a_tree_whose_rows_point_at_arrows(self) -> None:
        self.show(LISTS, "List(Int) & Desc")
        self.page.click("#tab-certificate")
        self.assertEqual(self.page.texts("#tree summary b"), ["rev", "sort", "input"])
        arrows = self.page.texts("#tree > div > .node .arrows td:last-child")
        self.assertEqual(sorted(arrows), ["Asc -> Desc", "List(Int) -> List(Int)"])
        self.page.click("#tree summary")
        self.assertEqual(self.page.texts("#tree summary b"), ["rev"])

    def test_members_lead_to_what_blocks_them(self) -> None:
        self.show(SHOP, "Up(Shop)")
        self.page.click("#tab-certificate")
        self.assertEqual(self.page.texts("#tree > .node summary"), ["member 1 Up(Shop)", "member 2 Up(Database)", "member 3 Up(Config)"])
        self.assertEqual(self.page.texts("#tree .chip"), ["member 2", "member 3", "member 2"])
        self.page.click("#member-1 summary")
        self.page.click("#member-0 .chip")
        self.assertEqual(self.page.run("return document.activeElement.parentElement.id"), "member-1")
        self.assertTrue(self.page.run("return document.getElementById('member-1').open"))

    def test_what_is_missing(self) -> None:
        self.show(MISSPELT, "B")
        self.page.click("#tab-missing")
        self.assertIn("3 of 4", self.page.text("#missing > p"))
        self.assertEqual(self.page.text("#missing > .warning"), "Nothing makes Imt.")
        goals = dict(text.split("\n", 1) for text in self.page.texts(".missing > li"))
        # B comes of what nothing makes, or of an A, which comes of a B.
        self.assertEqual(goals["0 B"], "Each of its rules takes a term of a goal that has none: 1: Imt (no term) 2: A (no term)")
        self.assertEqual(goals["1 Imt"], "Nothing makes Imt.")
        # What nothing makes comes first, since it is why the others have no term.
        self.page.click(".missing .chip")
        self.assertEqual(self.page.text("#details h2"), "Goal 1")

    def test_tabs_turn_by_keys(self) -> None:
        self.show("comp x : A\n", "A")
        self.page.click("#tab-grammar")
        self.page.press(Keys.ARROW_RIGHT)
        self.assertEqual(self.page.texts("[role=tab][aria-selected=true]"), ["Terms"])
        self.page.press(Keys.ARROW_LEFT)
        self.page.press(Keys.ARROW_LEFT)
        self.assertEqual(self.page.texts("[role=tab][aria-selected=true]"), ["What is missing"])


if __name__ == "__main__":
    unittest.main()
