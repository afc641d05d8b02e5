"""Tests of tools/check-specs, which tells the modules of specs/ that public clauses cite from those that are internal."""

from __future__ import annotations

import subprocess
import sys
import tempfile
import unittest
from pathlib import Path

TOOL = Path(__file__).resolve().parents[3] / "tools/check-specs"
LIBRARY = "//! A crate.\nmod one;\npub mod laws;\n\npub use one::{Shown, Orders, call};\n"
DEFINITION = "abbrev pub Means : Type 0\nMeans = Unit {0}\n"


def ways(specs: dict[str, str], one: str, laws: str = "") -> set[str]:
    """The modules of a crate that are cited, where its specs and two of its files are these."""
    with tempfile.TemporaryDirectory() as folder:
        write(Path(folder, "crates/a"), specs, {"lib": LIBRARY, "one": one, "laws": laws})
        ran = run(folder, "--cited")
        return {line.split(" > ")[-1].split(".")[1] for line in ran.stdout.splitlines()[:-1]}


def write(crate: Path, specs: dict[str, str], sources: dict[str, str]) -> None:
    for folder, ending, texts in (("specs", "antt", specs), ("src", "rt", sources)):
        (crate / folder).mkdir(parents=True)
        for name, text in texts.items():
            (crate / folder / f"{name}.{ending}").write_text(text)


def run(*words: str) -> subprocess.CompletedProcess[str]:
    return subprocess.run([sys.executable, str(TOOL), *words], capture_output=True, text=True)


def cites(module: str, head: str) -> str:
    """A source in which a clause behind this head names a definition of the module."""
    return f"ghost use Rattle.a.specs.{module}.{{Means}};\n\n{head}\n    ensures name {{ Means }}\n{{}}\n"


def is_cited(one: str, laws: str = "") -> bool:
    return bool(ways({"Goal": DEFINITION}, one, laws))


class Clauses(unittest.TestCase):
    def test_functions_that_are_exported(self) -> None:
        for head in ("pub fn call()", "pub fn call(xs: &[u8; 4]) -> u8\n    requires { 1 ≤ 2 }"):
            self.assertTrue(is_cited(cites("Goal", head)), head)
        for head in ("pub fn other()", "fn call()", "pub(crate) fn call()"):
            self.assertFalse(is_cited(cites("Goal", head)), head)

    def test_functions_of_a_public_file(self) -> None:
        self.assertTrue(is_cited("", cites("Goal", "pub fn law()")))
        self.assertFalse(is_cited("", cites("Goal", "fn help()")))

    def test_the_body_is_no_clause(self) -> None:
        self.assertFalse(is_cited("ghost use Rattle.a.specs.Goal.{Means};\npub fn call() {\n    ghost Means\n}\n"))

    def test_comments_and_texts_are_no_clauses(self) -> None:
        self.assertFalse(is_cited("ghost use Rattle.a.specs.Goal.{Means};\npub fn call()\n    ensures { P } // { Means\n{}\n"))
        self.assertTrue(is_cited('const OPENS: &str = "{";\n' + cites("Goal", "pub fn call()")))

    def test_methods(self) -> None:
        method = "    pub fn m(&self)\n        ensures { Means }\n    {}\n"
        uses = "ghost use Rattle.a.specs.Goal.{Means};\n"
        self.assertTrue(is_cited(f"{uses}impl<T: Drop> Shown<T> {{\n{method}}}\n"))
        self.assertTrue(is_cited(f"impl Shown {{\n    {uses}{method}}}\n"))
        self.assertFalse(is_cited(f"{uses}impl Hidden {{\n{method}}}\n"))
        self.assertFalse(is_cited(f"{uses}impl Shown {{\n{method.replace('pub ', '')}}}\n"))

    def test_models_show_their_values_alone(self) -> None:
        for member, wanted in {"Value": True, "view": False, "invariant": False}.items():
            model = f"impl Model for Shown {{\n    ghost use Rattle.a.specs.Goal.{{Means}};\n    ghost {member} = {{ Means }};\n}}\n"
            self.assertIs(is_cited(model), wanted, member)

    def test_members_of_traits(self) -> None:
        members = "    ghost below: { Self → Type 0 };\n    ghost law: { P };\n"
        trait = f"pub trait Orders {{\n{members}    fn f(&self)\n        ensures {{ below self }};\n}}\n"
        for member, wanted in {"below": True, "law": False}.items():
            given = f"impl Orders for Shown {{\n    ghost use Rattle.a.specs.Goal.{{Means}};\n    ghost {member} = {{ Means }};\n}}\n"
            self.assertIs(is_cited(trait + given), wanted, member)
        self.assertTrue(is_cited("ghost use Rattle.a.specs.Goal.{Means};\n" + trait.replace("{ P }", "{ Means }")))
        hidden = "trait Steps {}\nimpl Steps for Shown {\n    fn f(&self)\n        ensures { Means }\n    {}\n}\n"
        self.assertFalse(is_cited("ghost use Rattle.a.specs.Goal.{Means};\n" + hidden))


class Definitions(unittest.TestCase):
    CALL = cites("First", "pub fn call()")

    def test_what_a_cited_definition_names_is_cited(self) -> None:
        uses = "use Rattle.a.specs.Second.{Part, Other}\n"
        second = "abbrev pub Part : Type 0\nPart = Unit {0}\n\nabbrev pub Other : Type 0\nOther = Unit {0}\n"
        first = uses + "abbrev pub Means : Type 0\nMeans = Part\n"
        self.assertEqual(ways({"First": first, "Second": second}, self.CALL), {"First", "Second"})
        beside = uses + DEFINITION + "abbrev pub Beside : Type 0\nBeside = Part\n"
        self.assertEqual(ways({"First": beside, "Second": second}, self.CALL), {"First"})

    def test_by_constructors_fields_and_aliases(self) -> None:
        second = "pub data Either : Type 0 where\n  left : Either\n\npub record Pair : Type 0 where\n  pub both other : Either\n"
        cases = {"Second.{left}": "left", "Second as parts": "parts.left", "Second.{both}": "x.both", "Second as halves": "halves.Pair"}
        for uses, named in cases.items():
            first = f"use Rattle.a.specs.{uses}\nabbrev pub Means : Type 0\nMeans = {named}\n"
            self.assertEqual(ways({"First": first, "Second": second}, self.CALL), {"First", "Second"}, uses)

    def test_definitions_in_blocks(self) -> None:
        block = "{}module _ (n : Part)\n    (m : Part) where\n  mutual\n    abbrev pub Means : Type 0\n    Means = Unit\n"
        specs = {"First": block.format("use Rattle.a.specs.Second.{Part}\n"), "Second": "abbrev pub Part : Type 0\nPart = Unit\n"}
        self.assertEqual(ways(specs, self.CALL), {"First", "Second"})

    def test_comments_name_nothing(self) -> None:
        first = "use Rattle.a.specs.Second.{Part}\n-- Part\nabbrev pub Means : Type 0\nMeans = Unit -- as Part\n"
        self.assertEqual(ways({"First": first, "Second": "abbrev pub Part : Type 0\nPart = Unit\n"}, self.CALL), {"First"})


class Heads(unittest.TestCase):
    def said(self, first: str, second: str) -> tuple[int, list[str]]:
        """What is said of a module that a clause cites and of one that none cites, with these heads."""
        with tempfile.TemporaryDirectory() as folder:
            specs = {"First": first + DEFINITION, "Second": second + DEFINITION, "Lib": "pub mod First\npub mod Second\n"}
            write(Path(folder, "crates/a"), specs, {"lib": LIBRARY, "one": cites("First", "pub fn call()")})
            ran = run(folder)
            return ran.returncode, ran.stdout.splitlines()

    def test_heads_that_are_right(self) -> None:
        wanted = "check-specs: 1 of 2 modules are cited, 0 break the rule"
        self.assertEqual(self.said("-- what is meant\n", "-- internal: how it is found\n"), (0, [wanted]))

    def test_heads_that_are_wrong(self) -> None:
        status, lines = self.said("-- internal: what is meant\n", "-- how it is found\n")
        self.assertEqual((status, lines[-1]), (1, "check-specs: 1 of 2 modules are cited, 2 break the rule"))
        self.assertEqual(lines[:-1], [
            "crates/a/specs/First.antt: its head says internal, but a public clause cites it",
            "crates/a/specs/Second.antt: no public clause cites it, and its head doesn't say internal",
        ])

    def test_a_mark_below_the_first_line_is_none(self) -> None:
        self.assertEqual(self.said("-- what is meant\n", "-- how it is found\n-- internal\n")[0], 1)


if __name__ == "__main__":
    unittest.main()
