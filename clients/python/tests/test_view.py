"""Tests of what the page of a type holds. test_view_browser.py tests how it is shown."""

from __future__ import annotations

import contextlib
import io
import json
import re
import tempfile
import unittest
from pathlib import Path
from typing import Any
from unittest import mock

from support import LISTS, PROGRAM, session

from clsynth import Repository, SyntaxFault
from clsynth.command import main
from clsynth.lacking import Lacking
from clsynth.view.content import MOST_TERMS, content_of

SHOP = """
comp network : Up(Network)
comp database : Up(Network) -> Up(Config) -> Up(Database)
comp config : Up(Database) -> Up(Config)
comp shop : Up(Database) -> Up(Network) -> Up(Shop)
"""


def content(repository: str, goal: str, **options: Any) -> Any:
    with session(repository, **options) as asked:
        return content_of(asked, Repository.parse(repository), goal, "name")


def lacking(repository: str, type: str) -> list[str]:
    """What the type wants and nothing of the repository makes."""
    return Lacking(repository, [type]).of(type)


class Contents(unittest.TestCase):
    def test_a_grammar_has_goals_rules_and_the_types_of_components(self) -> None:
        lists = content(LISTS, "List(Int) & Asc")
        goals = lists["grammar"]["goals"]
        self.assertEqual(goals[0]["type"], "Asc & List(Int)")
        self.assertEqual(goals[0]["rank"], 2)
        # Asc is made by sort of integers or strings, and by rev of what descends.
        self.assertEqual([rule["component"] for rule in goals[0]["rules"]], ["sort", "sort", "rev"])
        self.assertEqual(lists["components"]["sort"], "List($a) -> List($a) & Asc")
        self.assertEqual((lists["kinds"]["sort"], lists["kinds"]["input"]), (["$a = Int | Str"], []))
        self.assertEqual((lists["inhabited"], lists["sizes"]), ("Some term has the type.", "The sizes of its terms have no bound."))

    def test_long_kinds_are_cut(self) -> None:
        kinds = content("kind a = A | B | C | D | E | F | G\ncomp x : $a\n", "A")["kinds"]
        self.assertEqual(kinds["x"], ["$a = A | B | C | D | E | F | .. (7 types)"])

    def test_terms_have_sizes_and_texts(self) -> None:
        repository = "comp x : A\ncomp f : A -> B\ncost f 5\ntext f = f<{1}>\n"
        terms = content(repository, "B")["terms"]
        self.assertEqual(terms, {"entries": [{"term": "f(x)", "size": 6, "text": "f<x>"}], "more": False})

    def test_a_page_has_so_many_terms_and_no_more(self) -> None:
        # There are 2 to the n terms of n + 1 components.
        terms = content("comp x : A\ncomp f : A -> A\ncomp g : A -> A\n", "A")["terms"]
        self.assertEqual((len(terms["entries"]), terms["more"]), (MOST_TERMS, True))

    def test_where_a_page_is_refused_it_has_fewer_terms(self) -> None:
        # With 255 terms of at most 8 components, 200 of them need more than 100 terms. 20 need the 31 of at most 5, and the page holds those.
        # Two need the 3 of at most 2 components, and so does one.
        repository = "comp x : A\ncomp f : A -> A\ncomp g : A -> A\n"
        self.assertEqual(len(content(repository, "A", pool=100)["terms"]["entries"]), 20)
        self.assertEqual(len(content(repository, "A", pool=10)["terms"]["entries"]), 2)
        self.assertEqual(content(repository, "A", pool=1)["terms"]["error"], "too-many-terms")

    def test_errors_of_bounds_stand_in_the_page(self) -> None:
        told = content(SHOP, "Up(Shop)", max_goals=2)
        for part in ("grammar", "terms", "certificate"):
            self.assertEqual(told[part]["error"], "too-large")
            self.assertIn("max_goals", told[part]["advice"])

    def test_an_error_of_the_type_is_raised(self) -> None:
        with self.assertRaises(SyntaxFault):
            content(SHOP, "Up(")


class Certificates(unittest.TestCase):
    def test_rows_have_their_arrows_and_the_rows_of_their_arguments(self) -> None:
        certificate = content(LISTS, "List(Int) & Desc")["certificate"]
        rows = [(row["type"], row["component"], row["arguments"]) for row in certificate["rows"]]
        self.assertEqual(rows, [("List(Int)", "input", []), ("Asc & List(Int)", "sort", [0]), ("Desc & List(Int)", "rev", [1])])
        arrows = certificate["arrows"]["rev 1"]
        self.assertEqual(arrows["of"], 4)
        # Of the four arrows the row points at those to its two parts.
        shown = [arrows["paths"][place] for place in certificate["rows"][2]["positions"]]
        self.assertEqual(sorted(shown), ["Asc -> Desc", "List(Int) -> List(Int)"])

    def test_a_row_for_omega_points_at_no_arrow(self) -> None:
        rows = content("comp x : A\ncomp f : omega -> B\n", "B")["certificate"]["rows"]
        self.assertEqual((rows[0]["type"], rows[0]["positions"], rows[1]["arguments"]), ("omega", (), [0]))

    def test_members_say_what_blocks_them(self) -> None:
        members = content(SHOP, "Up(Shop)")["certificate"]["members"]
        self.assertEqual([member["type"] for member in members], ["Up(Shop)", "Up(Database)", "Up(Config)"])
        blocked = [member["blocks"][0]["layers"][0][0]["blocked"] for member in members]
        self.assertEqual(blocked, [{"argument": 0, "member": 1}, {"argument": 1, "member": 2}, {"argument": 0, "member": 1}])

    def test_where_a_component_has_several_rules_each_set_has_its_own_member(self) -> None:
        certificate = content("comp f : (A -> C) & (B -> C)\n", "C")["certificate"]
        sets = certificate["members"][0]["blocks"][0]["layers"][0]
        types = [certificate["members"][it["blocked"]["member"]]["type"] for it in sets]
        taken = [certificate["arrows"]["f 1"]["paths"][it["positions"][0]] for it in sets]
        self.assertEqual(taken, [f"{type} -> C" for type in types])
        self.assertEqual(sorted(types), ["A", "B"])

    def test_layers_are_for_the_paths_of_a_member(self) -> None:
        certificate = content("comp f : A -> B\ncomp g : A -> C\n", "B & C")["certificate"]
        self.assertEqual(certificate["members"][0]["layers"], ["B", "C"])
        (block,) = certificate["members"][0]["blocks"]
        self.assertEqual((block["component"], [len(sets) for sets in block["layers"]]), ("f", [1, 0]))


class Lacks(unittest.TestCase):
    def test_a_misspelt_constructor(self) -> None:
        repository = "comp x : Int\ncomp f : Imt -> B\n"
        self.assertEqual(lacking(repository, "Imt"), ["Imt"])
        self.assertEqual(lacking(repository, "B & Int"), [])
        goals = content(repository, "B")["grammar"]["goals"]
        self.assertEqual([(goal["type"], goal["lacks"]) for goal in goals], [("B", []), ("Imt", ["Imt"])])

    def test_what_functions_take_is_not_made(self) -> None:
        self.assertEqual(lacking("comp f : A -> List(B) -> C\n", "List(A) & C"), ["List", "A"])
        self.assertEqual(lacking("comp f : A -> C\n", "A -> C"), [])

    def test_variables_make_what_their_kinds_have(self) -> None:
        self.assertEqual(lacking("kind a = A | B -> List(C)\ncomp f : $a\n", "A & List(C) & B"), ["B"])
        self.assertEqual(lacking("kind a = A\ncomp f : $a -> B\n", "A & B"), ["A"])

    def test_what_is_below_makes_what_is_above(self) -> None:
        self.assertEqual(lacking("sub Nat Int\nsub Int Num\ncomp x : Nat\n", "Num & Int"), [])
        self.assertEqual(lacking("sub Nat Int\ncomp x : Int\n", "Nat"), ["Nat"])

    def test_a_contravariant_constructor_needs_nothing_in_it(self) -> None:
        repository = "variance Sink contra\ncomp x : Sink(Int)\n"
        self.assertEqual(lacking(repository, "Sink(Nat)"), [])
        self.assertEqual(lacking(repository, "Int"), ["Int"])

    def test_products_need_both_parts(self) -> None:
        self.assertEqual(lacking("comp x : A * B\n", "A * C"), ["C"])


class Pages(unittest.TestCase):
    def setUp(self) -> None:
        folder = tempfile.TemporaryDirectory()
        self.addCleanup(folder.cleanup)
        self.folder = Path(folder.name)
        self.enterContext(mock.patch.dict("os.environ", CLSYNTH=PROGRAM))

    def run_main(self, *words: str) -> tuple[int, str, str]:
        with contextlib.redirect_stdout(io.StringIO()) as out, contextlib.redirect_stderr(io.StringIO()) as error:
            status = main(["view", *words])
        return status, out.getvalue(), error.getvalue()

    def write(self, text: str) -> str:
        file = self.folder / "lists.cls"
        file.write_text(text, encoding="utf-8")
        return str(file)

    def test_the_page_is_one_file_that_names_no_other(self) -> None:
        page = self.folder / "page.html"
        status, out, error = self.run_main(self.write(LISTS + "end\ninhabit A\n"), "Asc", "-o", str(page))
        self.assertEqual((status, out, error), (0, "", ""))
        text = page.read_text(encoding="utf-8")
        self.assertEqual(re.findall(r"https?:|src=|href=|@import|url\((?!#)", text), [])
        self.assertIn("<title>Asc - clsynth</title>", text)

    def test_nothing_of_the_repository_ends_the_script(self) -> None:
        status, text, _ = self.run_main(self.write("comp x : A\ntext x = </script><script>alert(1)</script>&{{content}}\n"), "A")
        self.assertEqual((status, text.count("</script>")), (0, 2))
        found = re.search(r'<script type="application/json" id="content">(.*?)</script>', text)
        assert found
        (entry,) = json.loads(found[1])["terms"]["entries"]
        # In a template `{{` is a brace.
        self.assertEqual(entry["text"], "</script><script>alert(1)</script>&{content}")

    def test_what_goes_wrong_is_said_and_no_page_is_written(self) -> None:
        page = self.folder / "page.html"
        page.write_text("kept")
        refused = self.folder / "refused.cls"
        refused.write_text("comp x A\n")
        cases = {
            (self.write(LISTS), "Asc &"): (7, "query:1:14: error: syntax: "), (str(self.folder / "none"), "Asc"): (3, "No such file"),
            (str(refused), "Asc"): (2, ":1:8: error: syntax: "),
        }
        for (repository, goal), (wanted, told) in cases.items():
            status, out, error = self.run_main(repository, goal, "-o", str(page))
            self.assertEqual((status, out, page.read_text()), (wanted, "", "kept"))
            self.assertIn(told, error)

    def test_wrong_words(self) -> None:
        with self.assertRaises(SystemExit) as ended:
            self.run_main("only")
        self.assertEqual(ended.exception.code, 1)


if __name__ == "__main__":
    unittest.main()
