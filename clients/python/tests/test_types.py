"""Tests of types as values."""

from __future__ import annotations

import copy
import pickle
import unittest
from collections.abc import Callable
from random import Random
from typing import Any

from support import session

import clsynth
from clsynth import Arrow, Constructor, Intersection, Product, Type, Variable, arrow, constructor, intersection, omega, product, var

A, B, C = map(constructor, "ABC")
List, Map = constructor("List"), constructor("Map")
MANY = 2_000

WRITTEN: dict[str, Type] = {
    "A -> B": A >> B,
    "A -> B -> C": A >> (B >> C),
    "(A -> B) -> C": arrow(A >> B, C),
    "List($a) -> List($a) & A": List(var("a")) >> (List(var("a")) & A),
    "A & B & C": A & B & C,
    "A & (B & C)": A & (B & C),
    "A * B * C": A * B * C,
    "A * (B * C)": A * (B * C),
    "A * B -> C": A * B >> C,
    "(A & B) * C": (A & B) * C,
    "A & B * C": A & B * C,
    "(A -> B) & (B -> C)": (A >> B) & (B >> C),
    "(A -> B) & C": intersection(A >> B, C),
    "(A -> B) * C": product(A >> B, C),
    "List(A -> B)": List(A >> B),
    "List(List(A) & B)": List(List(A) & B),
    "Map(A * B)": Map(A, B),
    "Map(A * B * C)": Map(A, B, C),
    "omega -> List": omega >> List(omega),
    "A -> B & C": "A" >> (B & "C"),
    "$a": var("a"),
    "omega": omega,
}


TOKENS = ["A", "B", "List", "(", ")", "->", "&", "*", "omega", " ", ",", "1", "|", "<=", "x1", "-", ">"]


def some_type(random: Random, depth: int) -> Type:
    form = random.randrange(6 if depth else 2)
    if form == 0:
        return omega
    if form == 1:
        return constructor(random.choice("ABC"))
    if form == 2:
        return List(some_type(random, depth - 1))
    return (Arrow, Intersection, Product)[form - 3](some_type(random, depth - 1), some_type(random, depth - 1))


def in_full(type: Type) -> str:
    """The type with parentheses around each part."""
    if isinstance(type, Constructor):
        return f"{type.name}({in_full(type.argument)})"
    if type == omega:
        return "omega"
    left, right = map(in_full, type.parts)
    return f"({left}) {({Arrow: '->', Intersection: '&', Product: '*'}[type.__class__])} ({right})"


class Building(unittest.TestCase):
    def test_texts(self) -> None:
        for text, type in WRITTEN.items():
            with self.subTest(text):
                self.assertEqual(str(type), text)
                self.assertEqual(Type.parse(text), type)
                self.assertEqual(Type.parse(f" ({text.replace('->', ' -> ')}) "), type)
                self.assertEqual(hash(Type.parse(text)), hash(type))
                self.assertEqual(pickle.loads(pickle.dumps(type)), type)
                self.assertEqual(eval(repr(type), {"Type": Type}), type)
        self.assertEqual(len(set(WRITTEN.values())), len(WRITTEN))

    def test_the_program_writes_them_in_the_same_way(self) -> None:
        # Paths of a component are printed as they stand, if each is one path by itself.
        texts = ["A -> B", "(A -> B) -> C", "A -> List(A -> B)", "A & B -> C", "A & (A -> B) -> List(List(C))"]
        with session("".join(f"comp x{number} : {text}\n" for number, text in enumerate(texts))) as asked:
            for number, text in enumerate(texts):
                self.assertEqual(asked.paths(f"x{number}"), [text])
                self.assertEqual(str(Type.parse(text)), text)

    def test_the_program_reads_them_as_they_are_meant(self) -> None:
        random = Random(1)
        with session("comp x : A\n") as asked:
            for _ in range(200):
                type = some_type(random, 4)
                for text in (str(type), in_full(type)):
                    self.assertEqual(Type.parse(text), type)
                self.assertTrue(asked.is_subtype(type, in_full(type)) and asked.is_subtype(in_full(type), type), str(type))

    def test_faults_stand_where_the_program_finds_them(self) -> None:
        random = Random(2)
        with session("comp x : A\n") as asked:
            for _ in range(300):
                text = "".join(random.choice(TOKENS) + random.choice(["", " "]) for _ in range(random.randrange(8)))
                place: int | None = None
                try:
                    Type.parse(text)
                except clsynth.ParseFault as fault:
                    place = fault.place
                with self.subTest(text):
                    try:
                        asked.inhabited(text)
                        self.assertIsNone(place)
                    except clsynth.SyntaxFault as fault:
                        self.assertEqual(place, fault.byte - len("inhabit "))

    def test_parts(self) -> None:
        match A >> (B & C * A):
            case Arrow(Constructor("A"), Intersection(Constructor("B"), Product(left, right))):
                self.assertEqual((left, right), (C, A))
            case _:
                self.fail()
        self.assertEqual((A >> B).parts, (A, B))
        self.assertEqual(List(A), Constructor("List", A))
        self.assertEqual(var("a"), Variable("a"))
        self.assertEqual(list(Type.parse("List($a) -> Map(B * $b) & $a").constructors()), ["List", "Map", "B"])
        self.assertEqual(list(Type.parse("List($a) -> Map(B * $b) & $a").variables()), ["a", "b", "a"])

    def test_nodes(self) -> None:
        # omega and variables have one node, a bare name two, c(T) one more than T, the others one more than both parts.
        for text, nodes in {
            "omega": 1, "$a": 1, "A": 2, "List(A)": 3, "A -> B": 5, "A & B & C": 8, "List($a) -> List($a) & A": 2 + 1 + 2 + 1 + 2,
        }.items():
            with self.subTest(text):
                self.assertEqual(Type.parse(text).nodes, nodes)

    def test_what_python_would_group_otherwise(self) -> None:
        builds: list[Callable[[], Type]] = [
            lambda: A >> B >> C, lambda: List >> List & A, lambda: A & (B >> C), lambda: "A -> B" & C, lambda: (A >> B) & (B >> C) & C,
        ]
        for build in builds:
            with self.assertRaises(clsynth.AmbiguousType):
                build()

    def test_what_is_no_type(self) -> None:
        something: Any = 5
        builds: list[Callable[[], object]] = [lambda: A >> something, lambda: List(something), lambda: something & A]
        for build in builds:
            with self.assertRaises(TypeError):
                build()

    def test_a_constructor_takes_one_argument(self) -> None:
        with self.assertRaises(TypeError):
            List(A)(B)

    def test_names_are_tested(self) -> None:
        for name in ("List.map", "to-upper", "ä", "1st", "", "omega", "x" * 49, "a b", "a\n"):
            for made in (constructor, var, clsynth.check_name):
                with self.subTest(name), self.assertRaises(clsynth.BadName):
                    made(name)
        self.assertEqual(clsynth.check_name("x" * 48), "x" * 48)
        with self.assertRaisesRegex(clsynth.BadName, "letter.*digits and `_`"):
            constructor("List.map")
        with self.assertRaisesRegex(clsynth.BadName, "49 bytes.*48"):
            constructor("x" * 49)

    def test_faults_have_their_place(self) -> None:
        for text, place in {
            "": 0, "A ->": 4, "A B": 2, "(A": 2, "A)": 1, "A & & B": 4, "$": 1, "$1": 1, "List()": 5, "omega(A)": 5, "A -> B,": 6,
            "A - B": 2, "A | B": 2,
        }.items():
            with self.subTest(text), self.assertRaises(clsynth.ParseFault) as fault:
                Type.parse(text)
            self.assertEqual(fault.exception.place, place)

    def test_parentheses(self) -> None:
        self.assertEqual(Type.parse("(" * 64 + "A" + ")" * 64), A)
        with self.assertRaises(clsynth.TypeTooDeep):
            Type.parse("(" * 65 + "A" + ")" * 65)

    def test_large_types(self) -> None:
        for text in (" -> ".join(["A"] * MANY), " & ".join(["A"] * MANY), " * ".join(["A"] * MANY)):
            large = Type.parse(text)
            self.assertEqual(large.nodes, 3 * MANY - 1)
            self.assertEqual(str(large), text)
            self.assertEqual(Type.parse(text), large)
            self.assertEqual(pickle.loads(pickle.dumps(large)), large)
            self.assertEqual(copy.deepcopy(large), large)
            self.assertEqual(len(list(large.constructors())), MANY)

    def test_a_value_does_not_change(self) -> None:
        with self.assertRaises(AttributeError):
            A.name = "B"  # type: ignore[misc]


if __name__ == "__main__":
    unittest.main()
