"""Tests of why a term has a type or not, and of what is missing for a type."""

from __future__ import annotations

import unittest

from support import session

from clsynth import SyntaxFault, Term, Type, UnknownInTerm
from clsynth.missing import missing
from clsynth.why import why

LINES = """
comp names : Lines
comp other : Words
comp sort : Lines -> Lines & Sorted
comp reverse : (Lines -> Lines) & (Unique -> Unique)
comp uniq : Lines & Sorted -> Lines & Sorted & Unique
comp merge : Lines & Sorted -> Lines & Sorted -> Lines & Sorted & Merged
comp both : List(A) & List(B)
"""


class Why(unittest.TestCase):
    def shown(self, term: str, goal: str) -> str:
        with session(LINES) as lines:
            return why(lines, term, goal).shown()

    def test_it_has_the_type(self) -> None:
        with session(LINES) as lines:
            reason = why(lines, Term.parse("uniq(sort(names))"), Type.parse("Unique & Lines"))
            self.assertTrue(reason.holds)
            self.assertEqual((reason.lacks, reason.arrows), ((), ()))
            self.assertEqual(set(map(str, reason.has)), {"Lines", "Sorted", "Unique"})
        self.assertEqual(self.shown("names", "omega"), "yes\nnames has Lines.")

    def test_an_argument_lacks_something(self) -> None:
        self.assertEqual(self.shown("uniq(reverse(sort(names)))", "Lines & Unique"), """\
no
uniq(reverse(sort(names))) lacks Lines and Unique. It has omega alone.
└─ uniq makes Lines & Unique of Lines & Sorted.
   └─ Argument 1, reverse(sort(names)), lacks Sorted. It has Lines.
      └─ No arrow of reverse with 1 argument leads there.""")

    def test_two_arguments_lack_something(self) -> None:
        self.assertEqual(self.shown("merge(names, sort(other))", "Merged"), """\
no
merge(names, sort(other)) lacks Merged. It has omega alone.
└─ merge makes Merged of Lines & Sorted, Lines & Sorted.
   ├─ Argument 1, names, lacks Sorted. It has Lines.
   └─ Argument 2, sort(other), lacks Lines and Sorted. It has omega alone.
      └─ sort makes Lines & Sorted of Lines.
         └─ Argument 1, other, lacks Lines. It has Words.""")

    def test_a_part_of_the_type_is_lacking(self) -> None:
        self.assertEqual(self.shown("sort(names)", "Sorted & Unique"), "no\nsort(names) lacks Unique. It has Lines & Sorted.\n"
                         "└─ No arrow of sort with 1 argument leads there.")
        self.assertEqual(self.shown("names", "Lines & (Sorted & Lines)"), "no\nnames lacks Sorted. It has Lines.")

    def test_functions(self) -> None:
        self.assertEqual(self.shown("merge", "Lines & Sorted -> Lines & Sorted -> Lines & Unique"),
                         "no\nmerge lacks Lines & Sorted -> Lines & Sorted -> Unique. It has "
                         "(Lines & Sorted -> Lines & Sorted -> Lines) & (Lines & Sorted -> Lines & Sorted -> Sorted) & "
                         "(Lines & Sorted -> Lines & Sorted -> Merged).")
        self.assertIn("└─ No arrow of names with 1 argument leads there.", self.shown("names(other)", "Lines"))

    def test_several_paths_together(self) -> None:
        self.assertEqual(self.shown("both", "List(A & B)").split("\n")[0], "yes")

    def test_faults_of_the_question(self) -> None:
        with session(LINES) as lines:
            for term, goal, error in (("nmaes", "Lines", UnknownInTerm), ("names(", "Lines", SyntaxFault), ("names", "Lines &", SyntaxFault)):
                with self.assertRaises(error):
                    why(lines, term, goal)


class Missing(unittest.TestCase):
    def shown(self, repository: str, goal: str) -> str:
        with session(repository) as asked:
            return missing(asked, repository, goal).shown()

    def test_a_constructor_that_nothing_makes(self) -> None:
        repository = "comp x : Int\ncomp f : Imt -> B\ncomp g : B -> Key -> C\n"
        self.assertEqual(self.shown(repository, "C"), """\
no term has C
Imt is wanted, and no component makes it
    comp f : Imt -> B
    Did you mean Int?
Key is wanted, and no component makes it
    comp g : B -> Key -> C""")
        self.assertEqual(self.shown(repository, "Strng"), "no term has Strng\nStrng is wanted, and no component makes it")
        self.assertEqual(self.shown(repository, "Int"), "some term has Int")

    def test_a_variable_wants_it(self) -> None:
        repository = "kind a = Int | Str\ncomp x : List(Int)\ncomp f : List($a) -> $a -> B\n"
        self.assertIn("    comp f : List($a) -> $a -> B", self.shown(repository, "B").split("\n"))

    def test_a_circle(self) -> None:
        repository = "comp names : Lines\ncomp sort : Liness -> Lines\ncomp sign : Lines -> Key -> Signed\ncomp extract : Signed -> Key\n"
        # `sort` isn't needed for lines, so that it takes what there isn't is no reason, though Liness is a member of the certificate.
        self.assertEqual(self.shown(repository, "Signed"), """\
no term has Signed
Each constructor on the way is made. But what leads to one of these types takes another one of them:
    Signed, by sign
    Key, by extract
Not needed, since there is another way:
    Liness is wanted, and no component makes it
        comp sort : Liness -> Lines
        Did you mean Lines?""")

    def test_what_a_function_is_given_is_not_made(self) -> None:
        # `map` gives an `A` to `inc`, but there is no term that is one.
        self.assertEqual(self.shown("comp map : (A -> B) -> C\ncomp inc : A -> B\n", "A"), """\
no term has A
A is wanted, and no component makes it
    comp inc : A -> B""")

    def test_types_that_no_term_has_at_once(self) -> None:
        self.assertIn("    Int & Str, to which nothing leads", self.shown("comp x : Int\ncomp y : Str\n", "Int & Str").split("\n"))


if __name__ == "__main__":
    unittest.main()
