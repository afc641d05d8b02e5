"""Tests of repositories as objects, and of kinds by rule."""

from __future__ import annotations

import unittest
from collections import deque
from collections.abc import Callable
from functools import reduce
from pathlib import Path

from support import CHAIN, ONCE, session, terms

import clsynth
from clsynth import Repository, constructor, intersection, numbers, pairs, steps, var

TOP = Path(__file__).resolve().parents[3]
A, B, C, At, Asc, Int, List = map(constructor, ["A", "B", "C", "At", "Asc", "Int", "List"])


class Declarations(unittest.TestCase):
    def test_the_text_of_the_program(self) -> None:
        lists = Repository()
        lists.below("Nat", Int)
        lists.variance("Sink", "contra")
        lists.variance("Ref", "inv")
        a = lists.kind("a", [Int, "Str"])
        lists.component("input", List(Int))
        lists.component("sort", List(a) >> (List(a) & Asc), cost=3, text="sorted({1})")
        lists.component("pair", "Sink(A) -> Ref(A)", text="{1}\n\\n{{}}")
        wanted = [
            "sub Nat Int", "variance Sink contra", "variance Ref inv", "kind a = Int | Str", "comp input : List(Int)",
            "comp sort : List($a) -> List($a) & Asc", "text sort = sorted({1})", "cost sort 3", "comp pair : Sink(A) -> Ref(A)",
            "text pair = {1}\\n\\n{{}}", "end",
        ]
        self.assertEqual(lists.to_lines(), wanted)
        self.assertEqual(str(lists), "\n".join(wanted) + "\n")
        self.assertEqual(str(Repository.parse(str(lists))), str(lists))
        with session(lists) as asked:
            self.assertEqual(asked.text_page("Asc", 1).entries, [clsynth.TermText(clsynth.Term.parse("sort(input)"), "sorted(input)")])
            self.assertTrue(asked.is_subtype("Sink(Int)", constructor("Sink")("Nat")))

    def test_what_was_declared_can_be_read(self) -> None:
        made = Repository()
        self.assertEqual(made.kind("a", {1: A, 2: B}), var("a"))
        self.assertEqual(made.kind("b", "A | B -> C"), var("b"))
        declared = made.component("f", A >> B, cost=2, text="{1}", call=abs)
        made.component("g", "A")
        made.below(A, "B")
        made.variance("C", "inv")
        self.assertEqual(declared, clsynth.Component("f", A >> B, 2, "{1}"))
        self.assertEqual(dict(made.components), {"f": declared, "g": clsynth.Component("g", A)})
        self.assertEqual(dict(made.kinds), {"a": (A, B), "b": (A, B >> C)})
        self.assertEqual((made.pairs_below, dict(made.variances)), ((("A", "B"),), {"C": "inv"}))
        self.assertEqual((made.costs, made.functions), ({"f": 2, "g": 1}, {"f": abs}))

    def test_filters(self) -> None:
        made = Repository()
        for name, type in (("x", A), ("f", A >> A), ("g", A >> A)):
            made.component(name, type)
        once = made.filter("once", ["N", "V"])
        once.leaf("f", "R")
        once.app("R", "V", None)
        once.app("R", clsynth.EVERY, "V")
        once.other("N")
        self.assertEqual(str(made), ONCE + "end\n")
        self.assertEqual(str(Repository.parse(ONCE)), ONCE + "end\n")
        self.assertEqual((once.name, once.accepts, once.states), ("once", ("N", "V"), ("N", "V", "R")))
        self.assertEqual(dict(made.filters), {"once": once})
        with session(made) as asked:
            self.assertEqual(list(asked.filtered(once, A, max_size=2)), terms("x", "f(x)", "g(x)"))

    def test_what_is_refused_and_changes_nothing(self) -> None:
        def refused(fault: type[Exception], declare: Callable[[Repository], object]) -> None:
            made = Repository.parse(CHAIN + "kind a = A\nvariance V inv\nfilter all accepts Q\n")
            before = str(made)
            with self.assertRaises(fault):
                declare(made)
            self.assertEqual(str(made), before)

        refused(clsynth.BadName, lambda it: it.component("List.map", A))
        refused(clsynth.BadName, lambda it: it.kind("omega", [A]))
        refused(clsynth.BadName, lambda it: it.below("A B", A))
        refused(clsynth.BadName, lambda it: it.variance("List(A)", "inv"))
        refused(clsynth.DuplicateName, lambda it: it.component("x", A))
        refused(clsynth.DuplicateName, lambda it: it.kind("a", [B]))
        refused(clsynth.DuplicateName, lambda it: it.variance("V", "contra"))
        refused(clsynth.DuplicateName, lambda it: it.filter("all", ["P"]))
        refused(clsynth.BadName, lambda it: it.filter("omega", ["P"]))
        refused(clsynth.BadName, lambda it: it.filter("any", ["P", "_"]))
        refused(clsynth.BadName, lambda it: it.filter("any", ["none"]))
        refused(clsynth.BadName, lambda it: it.filters["all"].leaf("x", "_"))
        refused(clsynth.BadName, lambda it: it.filters["all"].app("none", "_", "Q"))
        refused(clsynth.BadName, lambda it: it.filters["all"].other("none"))
        refused(clsynth.RepositoryFault, lambda it: it.filter("any", []))
        refused(clsynth.RepositoryFault, lambda it: it.filters["all"].leaf("y", "Q"))
        refused(clsynth.TooManyStates, lambda it: it.filter("any", [f"Q{number}" for number in range(17)]))
        refused(clsynth.RepositoryFault, lambda it: it.variance("W", "co"))  # type: ignore[arg-type]
        refused(clsynth.EmptyKind, lambda it: it.kind("b", []))
        refused(clsynth.EmptyKind, lambda it: it.component("y", []))
        refused(clsynth.VariableInKind, lambda it: it.kind("b", [var("a")]))
        refused(clsynth.VariableInKind, lambda it: it.component("y", [A, var("a")]))
        refused(clsynth.BadCost, lambda it: it.component("y", A, cost=0))
        refused(clsynth.BadCost, lambda it: it.component("y", A, cost=256))
        refused(clsynth.BadCost, lambda it: it.component("y", A, cost=1.5))  # type: ignore[arg-type]
        refused(clsynth.ParseFault, lambda it: it.component("y", "A ->"))
        refused(clsynth.KindTooLarge, lambda it: it.kind("b", numbers(0, 4096)))
        refused(clsynth.TypeTooLong, lambda it: it.component("y", intersection(*["A"] * 342)))
        refused(clsynth.TypeTooDeep, lambda it: it.component("y", reduce(lambda made, _: List(made), range(65), A)))
        refused(clsynth.RepositoryLineTooLong, lambda it: it.component("y", A, text="x" * 65_536))
        for text in ("{0}", "{17}", "{x}", "{", "}", "a\\b", "function() { return 1; }", "x\r"):
            refused(clsynth.BadTemplate, lambda it: it.component("y", A, text=text))

    def test_limits_are_those_of_the_program(self) -> None:
        made = Repository()
        for number in range(1_000):
            made.component(f"x{number}", "A")
        with self.assertRaises(clsynth.TooManyComponents):
            made.component("y", "A")
        with session(made) as asked:
            self.assertEqual(asked.sizes("A").greatest, 1)
        # 341 types have 341 * 2 + 340 nodes, which is 1,022. 4,096 is the greatest number of choices.
        large = Repository()
        large.component("wide", intersection(*["A"] * 341))
        large.component("many", var("n"))
        large.kind("n", numbers(0, 4095))
        large.component("text", A, text="x" * (65_536 - len("text text = ")))
        with session(large) as asked:
            self.assertTrue(asked.inhabited("N4095"))

    def test_a_repository_has_a_greatest_length(self) -> None:
        made = Repository()
        with self.assertRaises(clsynth.RepositoryTooLong):
            for number in range(20):
                made.component(f"x{number}", A, text="x" * 65_000)
        self.assertEqual(len(made.components), 16)
        with session(made) as asked:
            self.assertTrue(asked.inhabited("A"))

    def test_templates(self) -> None:
        texts = Repository()
        texts.component("x", A, text="a\nb")
        texts.component("f", A >> B, text="{1}{{}}\\\\ {2} {01} {16}")
        texts.component("blank", C, text="  two blanks before, one behind ")
        with session(texts) as asked:
            self.assertEqual([entry.text for entry in asked.texts("B")], ["a\nb{}\\ _ a\nb _"])
            self.assertEqual([entry.text for entry in asked.texts("C")], ["  two blanks before, one behind "])


class Reading(unittest.TestCase):
    def test_the_examples_mean_the_same(self) -> None:
        for path in sorted(TOP.glob("examples/*/repository.cls")):
            with self.subTest(path.parent.name):
                text = path.read_text()
                made = Repository.parse(text)
                self.assertEqual(str(Repository.parse(str(made))), str(made))
                goals = {str(part) for it in made.components.values() for part in it.type.all_parts() if not any(part.variables())}
                with session(text) as told, session(made) as built:
                    for goal in sorted(goals):
                        self.assertEqual(told.grammar(goal), built.grammar(goal))
                        self.assertEqual(told.text_page(goal, 5), built.text_page(goal, 5))

    def test_lines_in_any_shape(self) -> None:
        made = Repository.parse(
            "# c\r\n\r\n  comp  x:A\r\n\ttext x =\ty\ntext x = {{z\ncost x 007\ncost x 8\nkind a=A|B->C\nsub A B\n end \n# behind\n"
        )
        self.assertEqual(made.to_lines(), ["comp x : A", "text x = {{z", "cost x 8", "kind a = A | B -> C", "sub A B", "end"])

    def test_faults_have_their_line(self) -> None:
        for text, line, place in [
            ("comp x : A\ncomp f : A ->\n", 2, 13), ("kind a = A | ) | B\n", 1, 13), ("hello x\n", 1, 0), ("\n\ncost x\n", 3, 5),
            ("end\ncomp x : A\n", 2, 0), ("comp x : A | B\n", 1, 11),
        ]:
            with self.subTest(text), self.assertRaises(clsynth.ParseFault) as fault:
                Repository.parse(text)
            self.assertEqual((fault.exception.line, fault.exception.place), (line, place))
        with self.assertRaises(clsynth.DuplicateName) as twice:
            Repository.parse("comp x : A\ncomp x : B\n")
        self.assertEqual(twice.exception.__notes__, ["line 2: comp x : B"])
        for text in ("text x = y\ncomp x : A\n", "comp x : A\ncost y 3\n"):
            with self.assertRaises(clsynth.RepositoryFault):
                Repository.parse(text)


class Rules(unittest.TestCase):
    def test_numbers_and_pairs(self) -> None:
        self.assertEqual(numbers(0, 2), {0: constructor("N0"), 1: constructor("N1"), 2: constructor("N2")})
        self.assertEqual(list(map(str, numbers(-1, 1, "X").values())), ["X_1", "X0", "X1"])
        self.assertEqual(numbers(1, 0), {})
        ordered = pairs(numbers(0, 2), numbers(0, 2, "M"), lambda one, two: one < two)
        self.assertEqual({values: str(type) for values, type in ordered.items()}, {(0, 1): "N0_M1", (0, 2): "N0_M2", (1, 2): "N1_M2"})
        with self.assertRaises(clsynth.DuplicateName):
            pairs({1: constructor("a_b"), 2: constructor("a")}, {1: constructor("c"), 2: constructor("b_c")})

    def test_steps(self) -> None:
        self.assertEqual(list(map(str, steps(numbers(0, 3), lambda it: it + 2))), ["N0 -> N2", "N1 -> N3"])
        self.assertEqual(list(map(str, steps(numbers(0, 1), lambda it: it + 1, At))), ["At(N0) -> At(N1)"])

    def test_a_component_has_each_of_its_types(self) -> None:
        made = Repository()
        made.component("x", A)
        made.component("f", [A >> B, B >> C])
        self.assertEqual(made.to_lines(), ["comp x : A", "kind f = A -> B | B -> C", "comp f : $f", "end"])
        self.assertEqual(str(Repository.parse(str(made))), str(made))
        made.component("f_2", ["B -> A"])
        taken = Repository()
        taken.kind("g", [A])
        taken.component("g", [A, B])
        self.assertEqual(taken.to_lines()[1:3], ["kind g_2 = A | B", "comp g : $g_2"])
        with session(made) as asked:
            self.assertEqual(asked.page("C", 5, max_size=5).entries, terms("f(f(x))", "f(f(f_2(f(x))))"))

    def test_a_maze_is_ten_lines(self) -> None:
        walls = {(x, y) for x in range(30) for y in range(30) if x % 4 == 1 and y != (29 if x % 8 == 1 else 0)}
        cells = pairs(numbers(0, 29, "X"), numbers(0, 29, "Y"), lambda x, y: (x, y) not in walls)
        maze = Repository()
        maze.component("start", At(cells[0, 0]))
        for name, (right, down) in {"right": (1, 0), "left": (-1, 0), "down": (0, 1), "up": (0, -1)}.items():
            maze.component(name, steps(cells, lambda cell: (cell[0] + right, cell[1] + down), At))
        with session(maze) as asked:
            ranks = {goal.type: goal.rank for goal in asked.grammar(At(cells[28, 29])).goals}
        self.assertEqual(len(ranks), len(cells))
        # The least height of a term for a cell is one more than the length of the shortest way.
        self.assertEqual(ranks, {str(At(cells[cell])): length + 1 for cell, length in distances(set(cells)).items()})

    def test_more_types_than_a_kind_has_choices(self) -> None:
        texts = {f"a{one} -> b{two}" for one in range(10, 80) for two in range(10, 70)}
        made = Repository()
        made.component("f", sorted(texts))
        ((name, choices),) = made.kinds.items()
        self.assertEqual((name, len(choices)), ("f", 4_200 // 2))
        with session(made) as asked:
            self.assertEqual(set(asked.paths("f")), texts)

    def test_more_types_than_a_line_has_room_for(self) -> None:
        last = 5_000
        chain, types = Repository(), numbers(0, last)
        chain.component("zero", types[0])
        chain.component("next", steps(types, lambda it: it + 1))
        self.assertGreater(len(chain.kinds), 1)
        with session(chain, max_goals=last + 1) as asked:
            goals = asked.grammar(types[last]).goals
        self.assertEqual([goal.rank for goal in goals], list(range(last + 1, 0, -1)))
        with self.assertRaises(clsynth.KindTooLarge):
            chain.component("again", steps(numbers(0, 50_000), lambda it: it + 1))


def distances(cells: set[tuple[int, int]]) -> dict[tuple[int, int], int]:
    """The length of the shortest way from the first cell to each, breadth first."""
    found = {(0, 0): 0}
    waiting = deque(found)
    while waiting:
        x, y = waiting.popleft()
        for cell in ((x + 1, y), (x - 1, y), (x, y + 1), (x, y - 1)):
            if cell in cells and cell not in found:
                found[cell] = found[x, y] + 1
                waiting.append(cell)
    return found


if __name__ == "__main__":
    unittest.main()
