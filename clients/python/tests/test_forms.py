"""Tests of the forms of lines, against docs/LANGUAGE.md and against the program."""

from __future__ import annotations

import random
import subprocess
import unittest

from documents import codes, tables
from support import PROGRAM

from clsynth.forms import CERTIFICATE, QUERIES, REPOSITORY, forms_of, misfit
from clsynth.tokens import byte_of, tokens_of


def fault(line: str, forms: tuple[str, ...]) -> str:
    """The fault of a line in the words of the program, and an empty text if there is none."""
    some = forms_of(line, forms)
    if not some:
        return f"syntax {byte_of(line, tokens_of(line)[0].place)}"
    found = misfit(line, some)
    return f"{'reserved' if found.is_reserved else 'syntax'} {byte_of(line, found.place)}" if found else ""


def documented(head: str) -> list[str]:
    return [form for cells in tables(head) for form in codes(cells)]


class Documents(unittest.TestCase):
    """Behind `list`, `texts` and `filtered` the document says in a sentence that `after TERM` may stand."""

    def test_all_forms_of_the_document(self) -> None:
        self.assertEqual(list(REPOSITORY), documented("| Line | Meaning |"))
        self.assertEqual([form.removesuffix(" [after TERM]") for form in QUERIES], documented("| Query | Reply if there is no error |"))
        certificates = [form for form in documented("| Line | Says |") if form.split()[0] in {it.split()[0] for it in CERTIFICATE}]
        self.assertEqual(dict.fromkeys(certificates), dict.fromkeys(CERTIFICATE))


class Misfits(unittest.TestCase):
    def test_places(self) -> None:
        cases = {
            "inhabit A ->": "syntax 12", "list A omega 3 take 1": "syntax 7", "hello": "syntax 0", " comp y : B": "syntax 1",
            "inhabit omega(A)": "syntax 13", "paths omega": "reserved 6", "typed omega : A": "reserved 6", "inhabit $omega": "reserved 9",
            "inhabit A # no": "syntax 10", "list A max 3 take 1 after": "syntax 25", "typed f(x,) : A": "syntax 10", "inhabit (A": "syntax 10",
            "batch": "syntax 5", "batch A |": "syntax 9", "batch A | | B": "syntax 10", "batch | A": "syntax 6",
            "batch A|B": "", "batch A": "",
            "sub A <= B & (C -> D * E)": "", "texts A max 1 take 2 after f(x, g(y))": "", "inhabit ä": "syntax 8", "sub A ä B": "syntax 6",
        }
        for line, wanted in cases.items():
            with self.subTest(line):
                self.assertEqual(fault(line, QUERIES), wanted)

    def test_places_in_a_repository(self) -> None:
        cases = {
            "sub A <= B": "syntax 6", "variance A co": "syntax 11", "kind a = A |": "syntax 12", "kind a =": "", "comp omega : A": "reserved 5",
            "text x": "syntax 6", "text x = } $ (": "", "cost x y": "syntax 7", "end x": "syntax 4", "comp x : Map(A, B)": "syntax 14",
            "comp x : " + "A" * 49: "syntax 9", "comp x : " + "A" * 48: "", "filter f": "syntax 8", "filter f accepts": "syntax 16",
            "filter f accepts P Q": "", "filter f accepts P none": "syntax 19", "filter f accepts P omega": "reserved 19",
            "filter omega accepts P": "reserved 7", "leaf f x -> none": "", "leaf f x -> _": "syntax 12", "leaf f x P": "syntax 9",
            "app f _ _ -> none": "", "app f none _ -> Q": "syntax 6", "app f P -> Q": "syntax 8", "other f Q": "", "other f _": "syntax 8",
        }
        for line, wanted in cases.items():
            with self.subTest(line):
                self.assertEqual(fault(line, REPOSITORY), wanted)

    def test_what_is_wanted(self) -> None:
        cases = {
            "list A take 3 max 5": ("`(`", "`->`", "`&`", "`*`", "`max`"),
            "inhabit A &": ("a type",),
            "list A max 3 take 1 before": ("`after`", "the end of the line"),
            "typed f(x A) : A": ("`(`", "`)`", "`,`"),
            "list A max x": ("a number",),
            "inhabit $": ("a name of a variable",),
        }
        for line, wanted in cases.items():
            with self.subTest(line):
                found = misfit(line, forms_of(line, QUERIES))
                self.assertEqual(found and found.wanted, wanted)
        places = {
            "variance A": ("`contra`", "`inv`"),
            "filter omega": ("a name of a filter",),
            "filter f accepts P 3": ("a name of a state", "the end of the line"),
            "app f P none": ("a name of a state", "`_`"),
            "leaf f x -> _": ("a name of a state", "`none`"),
        }
        for line, wanted in places.items():
            with self.subTest(line):
                found = misfit(line, forms_of(line, REPOSITORY))
                self.assertEqual(found and found.wanted, wanted)

    def test_the_program_finds_the_same_places(self) -> None:
        lines = list(altered_lines(random.Random(4), 1_500))
        replies = iter(subprocess.run([PROGRAM], input="comp x : A\nend\n" + "\n".join(lines), stdout=subprocess.PIPE, text=True).stdout.split("\n"))
        for line in lines:
            reply = next(replies)
            told = reply.removeprefix("error ") if reply.startswith(("error syntax", "error reserved")) else ""
            self.assertEqual(fault(line, QUERIES), told, line)


def altered_lines(chance: random.Random, count: int) -> list[str]:
    """Queries with replies of one line, whose tokens were altered."""
    models = ["sub A & B <= C -> D", "typed x(y, x(y)) : A * B", "inhabit (A -> B) & C(A(B))"]
    others = "( ) , -> & * $ : = <= | omega A x max ~ ä x1 - end inhabit".split()
    made: list[str] = []
    while len(made) < count:
        tokens = [token.text for token in tokens_of(chance.choice(models))]
        place = chance.randrange(len(tokens))
        tokens[place : place + chance.randrange(3)] = [chance.choice(others)] if chance.random() < 0.7 else []
        # Replies to queries of other words may have several lines, and a first `#` makes a comment.
        if tokens and tokens[0] in ("sub", "typed", "inhabit", "A", "x", "(", "ä"):
            made.append(chance.choice((" ", "  ")).join(tokens))
    return made


if __name__ == "__main__":
    unittest.main()
