"""Tests of terms and of running them."""

from __future__ import annotations

import copy
import functools
import operator
import pickle
import unittest
from collections.abc import Callable
from typing import Any

from support import CHAIN, LISTS, session, terms

import clsynth
from clsynth import Repository, Term, curry, evaluate

DEEP = 5_000


def chain(count: int, end: str = "x") -> Term:
    term = Term(end)
    for _ in range(count):
        term = Term("f", (term,))
    return term


class Values(unittest.TestCase):
    def test_text_and_value(self) -> None:
        term = Term("f", (Term("x"), Term("g", (Term("y"), Term("z")))))
        for text in ("f(x, g(y, z))", " f ( x ,\tg(y,z) ) "):
            self.assertEqual(Term.parse(text), term)
        self.assertEqual(str(term), "f(x, g(y, z))")
        self.assertEqual(eval(repr(term), {"Term": Term}), term)
        self.assertNotEqual(term, "f(x, g(y, z))")

    def test_equal_terms_have_equal_hashes(self) -> None:
        apart = terms("x", "y", "f(x)", "f(y)", "f(x, x)", "f(f(x))", "f(x(x))", "g(x)")
        self.assertEqual(len(set(apart + terms("f(x)", "f( f(x))"))), 8)

    def test_numbers(self) -> None:
        #     f          8 occurrences; f, g, g, y are nested
        #   g   g(g(y), x)
        term = Term.parse("f(g(x, x), g(g(y), x))")
        self.assertEqual((term.length, term.depth, term.size()), (8, 4, 8))
        self.assertEqual(term.size({"g": 10, "x": 2}), 1 + 3 * 10 + 3 * 2 + 1)
        self.assertEqual((Term("x").length, Term("x").depth), (1, 1))

    def test_subterms_in_the_order_of_the_text(self) -> None:
        found = list(Term.parse("f(g(x), g(x, y))").subterms())
        self.assertEqual(found, terms("f(g(x), g(x, y))", "g(x)", "x", "g(x, y)", "x", "y"))

    def test_faults_have_their_place(self) -> None:
        for text, place in {
            "": 0, " ": 1, "f( ": 3, "f()": 2, "f(x": 3, "f(x y)": 4, "f(x))": 4, "f x": 2, "f(x,)": 4, ",": 0, "f(1)": 2, "f(x)(y)": 4,
        }.items():
            with self.subTest(text), self.assertRaises(clsynth.ParseFault) as fault:
                Term.parse(text)
            self.assertEqual(fault.exception.place, place)

    def test_a_value_does_not_change(self) -> None:
        with self.assertRaises(AttributeError):
            Term("x").component = "y"  # type: ignore[misc]

    def test_deep_terms(self) -> None:
        deep = chain(DEEP)
        self.assertEqual((deep.length, deep.depth, deep.size({"f": 2})), (DEEP + 1, DEEP + 1, 2 * DEEP + 1))
        text = str(deep)
        self.assertEqual(text, "f(" * DEEP + "x" + ")" * DEEP)
        again = Term.parse(text)
        self.assertTrue(again == deep and hash(again) == hash(deep))
        self.assertFalse(deep == chain(DEEP, "y"))
        self.assertEqual(sum(1 for _ in deep.subterms()), DEEP + 1)
        self.assertEqual(pickle.loads(pickle.dumps(deep)), deep)
        self.assertEqual(copy.deepcopy(deep), deep)
        self.assertEqual(evaluate(deep, {"x": 0, "f": lambda it: it + 1}), DEEP)

    def test_wide_terms(self) -> None:
        wide = Term("f", tuple(Term(f"x{number}") for number in range(1_000)))
        self.assertEqual(Term.parse(str(wide)), wide)
        self.assertEqual((wide.length, wide.depth), (1_001, 2))

    def test_other_names_are_kept(self) -> None:
        names = clsynth.Names(["List.map", "to-upper", "List_map", "omega", "1st", "", "x" * 60, "x" * 61])
        self.assertEqual(names.allowed("List.map"), "List_map")
        self.assertEqual(names.allowed("List_map"), "List_map_2")
        self.assertEqual(names.allowed("to-upper"), "to_upper")
        self.assertEqual([names.allowed(name) for name in ("omega", "1st", "")], ["_omega", "_1st", "_"])
        self.assertEqual(names.allowed("x" * 60), "x" * 48)
        self.assertEqual(names.allowed("x" * 61), "x" * 46 + "_2")
        for name in ("List.map", "to-upper", "List_map", "omega", "1st", "", "x" * 60, "x" * 61):
            self.assertEqual(names.foreign(clsynth.check_name(names.allowed(name))), name)
        foreign = names.restore(Term.parse("List_map(to_upper, y)"))
        self.assertEqual(str(foreign), "List.map(to-upper, y)")
        self.assertEqual(pickle.loads(pickle.dumps(foreign)), foreign)


class Running(unittest.TestCase):
    def test_values_and_functions(self) -> None:
        functions: dict[str, object] = {"xs": [3, 1, 2], "sort": sorted, "rev": lambda it: it[::-1]}
        self.assertEqual(evaluate("rev(sort(xs))", functions), [3, 2, 1])
        self.assertIs(evaluate("sort", functions), sorted)

    def test_how_many_arguments_are_taken(self) -> None:
        functions: dict[str, Any] = {
            "a": 1, "b": 2, "c": 3,
            "two": lambda x, y: ("two", x, y),
            "one_by_one": lambda x: lambda y: ("one by one", x, y),
            "two_then_one": lambda x, y: lambda z: ("two then one", x, y, z),
            "default": lambda x, y=0: ("default", x, y),
            "any": lambda *given: ("any", *given),
            "most": max,
            "call": lambda f, x: f(x),
        }
        for term, value in {
            "two(a, b)": ("two", 1, 2), "one_by_one(a, b)": ("one by one", 1, 2), "two_then_one(a, b, c)": ("two then one", 1, 2, 3),
            "default(a)": ("default", 1, 0), "default(a, b)": ("default", 1, 2), "any(a, b, c)": ("any", 1, 2, 3), "most(a, c, b)": 3,
            "call(two(a), b)": ("two", 1, 2), "call(two_then_one(a, b), c)": ("two then one", 1, 2, 3),
            "call(one_by_one(a), c)": ("one by one", 1, 3),
        }.items():
            with self.subTest(term):
                self.assertEqual(evaluate(term, functions), value)
        with self.assertRaises(TypeError):
            evaluate("a(b)", functions)

    def test_curry(self) -> None:
        add = curry(lambda *given: sum(given), 3)
        self.assertEqual([add(1)(2)(3), add(1, 2)(3), add(1)(2, 3), add(1, 2, 3)], [6] * 4)
        for term in ("add(a, b, a)", "call(call(add(a), b), a)", "call(add(a, b), a)"):
            self.assertEqual(evaluate(term, {"a": 1, "b": 4, "add": add, "call": lambda f, x: f(x)}), 6)
        self.assertEqual(curry(lambda x: lambda y: x - y, 1)(5, 3), 2)
        with self.assertRaises(ValueError):
            curry(print, 0)

    def test_nothing_runs_if_a_function_is_missing(self) -> None:
        ran: list[int] = []
        with self.assertRaises(clsynth.MissingFunction) as missing:
            evaluate("f(f(x), g(y))", {"x": 1, "f": lambda *given: ran.append(1)})
        self.assertEqual((missing.exception.names, ran), (("g", "y"), []))

    def test_arguments_run_from_left_to_right_each_as_often_as_it_stands(self) -> None:
        ran: list[str] = []

        def noted(name: str) -> Callable[..., str]:
            def run(*given: object) -> str:
                ran.append(name)
                return name
            return run

        self.assertEqual(evaluate("f(g(x), h(g(x)))", {"x": 0, **{name: noted(name) for name in "fgh"}}), "f")
        self.assertEqual(ran, ["g", "g", "h", "f"])

    def test_values_of_a_type(self) -> None:
        def minus(it: int) -> int:
            return -it

        with session("comp one : A\ncomp neg : A -> A\ncomp add : A -> A -> B\n") as numbers:
            functions = {"one": 1, "neg": minus, "add": operator.add}
            self.assertEqual(list(numbers.values("B", functions, max_size=5, page_size=1)), [
                # add(one, one); add(one, neg one), add(neg one, one); then size 5 by the code of the first argument
                2, 0, 0, 2, -2, 2,
            ])
            ran = numbers.values("A", {"one": 1, "neg": minus})
            self.assertEqual([next(ran) for _ in range(4)], [1, -1, 1, -1])
            with self.assertRaises(clsynth.MissingFunction):
                list(numbers.values("B", {"one": 1}))

    def test_values_by_the_calls_of_a_repository(self) -> None:
        numbers = Repository()
        numbers.component("zero", "Nat", call=0)
        numbers.component("next", "Nat -> Nat", call=lambda it: it + 1)
        with session(numbers) as asked:
            self.assertEqual(list(asked.values("Nat")), list(range(64)))
        with session(str(numbers)) as told, self.assertRaises(clsynth.MissingFunction):
            next(told.values("Nat"))

    def test_terms_of_replies(self) -> None:
        with session(LISTS) as lists:
            (term,) = lists.page("Desc", 1).entries
            self.assertEqual(term, Term("rev", (Term("sort", (Term("input"),)),)))
            self.assertTrue(lists.has_type(term, "List(Int) & Desc"))
            self.assertEqual(lists.page("Desc", 1, after=term).entries, lists.page("Desc", 1, after=str(term)).entries)
            functions = {"input": [2, 3, 1], "sort": sorted, "rev": lambda it: list(reversed(it))}
            self.assertEqual(list(lists.values("List(Int) & Desc", functions, max_size=3)), [[3, 2, 1]])

    def test_long_terms_are_sent(self) -> None:
        with session(CHAIN) as asked:
            self.assertTrue(asked.has_type(functools.reduce(lambda made, _: Term("f", (made,)), range(64), Term("x")), "A"))


if __name__ == "__main__":
    unittest.main()
