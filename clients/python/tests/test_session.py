"""Tests of a session over the program that CLSYNTH names, or that is built in this repository."""

from __future__ import annotations

import itertools
import unittest
import unittest.mock
from collections.abc import Callable
from pathlib import Path
from typing import Any

from support import CHAIN, LISTS, ONCE, PROGRAM, fake, session, terms, wait_until

import clsynth
from clsynth import Goal, Grammar, Rule, Session, Step, Term, TermText, Verdict

# One component that meets each of eleven paths in two ways: 2,048 covers.
WIDE = "comp w : " + " & ".join(f"({side}{path} -> C{path})" for path in range(1, 12) for side in "AB") + "\n"


def tower(height: int) -> str:
    """A type whose spread grows threefold with each step."""
    return "A & B & C" if height == 0 else f"({tower(height - 1)}) -> A & B & C"


class Answers(unittest.TestCase):
    def test_words(self) -> None:
        with session("sub Nat Int\n" + LISTS) as lists:
            self.assertTrue(lists.is_subtype("List(Nat)", "List(Int)"))
            self.assertFalse(lists.is_subtype("List(Int)", "List(Nat)"))
            self.assertTrue(lists.has_type("rev(sort(input))", "List(Int) & Desc"))
            self.assertFalse(lists.has_type("rev(input)", "Desc"))
            self.assertTrue(lists.inhabited("Desc"))
            self.assertFalse(lists.inhabited("List(Str)"))
            self.assertEqual(lists.paths("input"), ["List(Int)"])

    def test_several_types_at_once(self) -> None:
        # The closures of A, of B and of omega have a goal each. They have five rules: `x` and `f` of A and of omega, and `any`.
        asked: list[clsynth.TypeLike] = ["A", clsynth.constructor("B"), "omega"]
        with session(CHAIN, max_goals=3, max_rules=5) as chain:
            self.assertEqual(chain.batch(asked), [True, False, True])
            self.assertEqual(chain.batch(iter(["B"] * 64)), [False] * 64)
            self.assertEqual(chain.batch(["A -> A", "B", "A -> A"]), [True, False, True])
            with self.assertRaises(clsynth.NumberOutOfRange):
                chain.batch(["A"] * 65)
            with self.assertRaises(clsynth.SyntaxFault):
                chain.batch([])
            with self.assertRaises(ValueError):
                chain.batch(["A | B"])
            self.assertEqual(chain.ask(clsynth.queries.batch(asked)), [True, False, True])
        for bound in ({"max_goals": 2}, {"max_rules": 4}):
            with session(CHAIN, **bound) as chain:
                with self.assertRaises(clsynth.ClosureTooLarge):
                    chain.batch(asked)
                self.assertEqual(chain.batch(asked[:1] * 2), [True, True])

    def test_end_may_be_left_out(self) -> None:
        for text in (CHAIN, CHAIN + "end", CHAIN + " end \r\n", CHAIN.rstrip()):
            with session(text) as chain:
                self.assertTrue(chain.inhabited("A"))
        with self.assertRaises(ValueError):
            session(CHAIN + "end\ninhabit A\n")

    def test_terms_of_many_pages(self) -> None:
        with session(CHAIN) as chain:
            once = chain.page("A", 64)
            self.assertEqual(once.entries[:3], terms("x", "f(x)", "f(f(x))"))
            self.assertFalse(once.more)
            for size in (1, 7, 63, 64, 65):
                self.assertEqual(list(chain.terms("A", page_size=size)), once.entries)
            self.assertEqual(list(chain.terms("A", max_size=3, after="x")), terms("f(x)", "f(f(x))"))
            self.assertEqual(list(chain.terms("B")), [])

    def test_pages_for_which_too_many_terms_count_are_made_smaller(self) -> None:
        # There are 63 terms of at most 6 components, and 127 of at most 7. A page counts those of the size of the term behind it too. So
        # pages of 200 are refused, those of 20 end with number 60, one of 2 follows, and none of 1, since number 64 is of size 7.
        with session("comp x : A\ncomp f : A -> A\ncomp g : A -> A\n", pool=100) as trees:
            listed: list[Term] = []
            with self.assertRaises(clsynth.TooManyTerms):
                for term in trees.terms("A", page_size=200):
                    listed.append(term)
            self.assertEqual(len(listed), 62)
            self.assertEqual(len(list(trees.terms("A", page_size=200, max_size=6))), 63)

    def test_terms_that_a_filter_accepts(self) -> None:
        wanted = terms("x", "f(x)", "g(x)", "f(g(x))", "g(f(x))", "g(g(x))")
        with session(ONCE) as trees:
            self.assertEqual(trees.filtered_page("once", "A", 9, max_size=3), clsynth.Page(wanted, False))
            self.assertEqual(trees.filtered_page("once", "A", 2, max_size=3, after="f(f(x))"), clsynth.Page(wanted[3:5], True))
            for size in (1, 2, 6, 7):
                self.assertEqual(list(trees.filtered("once", "A", max_size=3, page_size=size)), wanted)
            self.assertEqual(list(trees.filtered(clsynth.Repository.parse(ONCE).filters["once"], "A", max_size=3)), wanted)
            with self.assertRaises(clsynth.UnknownComponent) as unknown:
                trees.filtered_page("twice", "A", 1)
            self.assertEqual(unknown.exception.detail, "twice")

    def test_iterators_go_side_by_side(self) -> None:
        with session(CHAIN) as chain:
            pairs = zip(chain.terms("A", page_size=2), chain.texts("A", page_size=3))
            for term, entry in itertools.islice(pairs, 10):
                self.assertEqual(entry, TermText(term, str(term)))
                self.assertTrue(chain.has_type(term, "A"))

    def test_texts(self) -> None:
        with session(LISTS) as lists:
            page = lists.text_page("List(Int) & Desc", 1)
            self.assertEqual(page.entries, [TermText(Term.parse("rev(sort(input))"), "sorted(xs)\n  .reversed()")])
            self.assertTrue(page.more)

    def test_a_text_that_is_too_long_is_none(self) -> None:
        doubling = CHAIN + "text x = " + "x" * 40_000 + "\ntext f = {1}{1}\n"
        with session(doubling) as chain:
            self.assertEqual([entry.text and len(entry.text) for entry in chain.text_page("A", 2).entries], [40_000, None])

    def test_texts_are_utf8(self) -> None:
        with session("comp x : A\ntext x = über\n") as accents:
            self.assertEqual(list(accents.texts("A")), [TermText(Term("x"), "über")])

    def test_components_come_and_go(self) -> None:
        with session(CHAIN) as chain:
            chain.add("g", "B -> A")
            self.assertFalse(chain.inhabited("B"))
            chain.add("y", clsynth.constructor("B"))
            self.assertEqual(chain.page("A", 9, max_size=2).entries, terms("x", "f(x)", "g(y)"))
            chain.drop("f")
            self.assertEqual(chain.page("A", 9, max_size=3).entries, terms("x", "g(y)"))
            with self.assertRaises(clsynth.UnknownComponent) as unknown:
                chain.drop("f")
            self.assertEqual(unknown.exception.detail, "f")
            with self.assertRaises(clsynth.DuplicateComponent) as known:
                chain.add("y", "A")
            self.assertEqual(known.exception.detail, "y")
            with self.assertRaises(clsynth.ComponentRefused) as refused:
                chain.add("h", "$b")
            self.assertEqual(refused.exception.detail, "variable b")
            self.assertEqual(chain.page("A", 9, max_size=3).entries, terms("x", "g(y)"))

    def test_a_component_that_is_added_again_is_a_new_one(self) -> None:
        with session(CHAIN + "text f = [{1}]\ncost f 2\n") as chain:
            self.assertEqual(chain.text_page("A", 2, max_size=3).entries[1], TermText(Term.parse("f(x)"), "[x]"))
            chain.drop("f")
            chain.add("f", "A -> A")
            self.assertEqual(chain.text_page("A", 2, max_size=2).entries[1], TermText(Term.parse("f(x)"), "f(x)"))

    def test_sizes(self) -> None:
        with session(CHAIN + "comp y : B\ncost y 7\n") as chain:
            self.assertEqual(chain.sizes("B"), clsynth.Sizes(7))
            self.assertEqual(chain.sizes("C"), clsynth.Sizes(0))
            self.assertEqual(chain.sizes("A"), clsynth.Sizes(None, (Step(0, 1, 0),)))
            self.assertEqual([(it.is_infinite, it.is_over) for it in map(chain.sizes, "ABC")], [(True, False), (False, False), (False, False)])

    def test_a_greatest_size_over_the_bound(self) -> None:
        doubling = "".join(f"comp f{step} : A{step} -> A{step} -> A{step + 1}\n" for step in range(31))
        with session(doubling + "comp x : A0\n") as tree:
            over = tree.sizes("A31")
        self.assertEqual(over, clsynth.Sizes(None))
        self.assertTrue(over.is_over and not over.is_infinite)

    def test_history(self) -> None:
        with session(CHAIN, workers=2) as chain:
            claim, file = chain.history("A")
            self.assertEqual((claim.kind, claim.row, file.kind, file.row), ("claim", 0, "file", 0))
            self.assertEqual(claim.worker, file.worker)


class Grammars(unittest.TestCase):
    def test_goals_and_rules(self) -> None:
        with session("comp f : (A -> C) & (B -> C)\ncomp x : A\n") as sums:
            goals = sums.grammar("C").goals
        self.assertEqual([(goal.type, goal.rank) for goal in goals], [("C", 2), ("A", 1), ("B", None)])
        self.assertEqual(goals[0].rules, (clsynth.Rule("f", (1,)), clsynth.Rule("f", (2,))))
        self.assertEqual(goals[2].rules, ())

    def test_a_term_of_least_height(self) -> None:
        # To `D` lead g(g(x)), of height 3, and h(x, x, x), of height 2. `C` has no term but by `any`, since `f` takes what nothing makes.
        repository = "comp x : A\ncomp g : (A -> B) & (B -> D)\ncomp h : A -> A -> A -> D\ncomp f : E -> C\n"
        with session(repository) as asked:
            self.assertEqual(asked.grammar("D").least_term(), Term.parse("h(x, x, x)"))
            self.assertEqual(asked.grammar("B -> D").least_term(), Term.parse("g"))
            self.assertEqual(asked.grammar("omega").least_term(), Term.parse("x"))
            self.assertIsNone(asked.grammar("C").least_term())
            grammar = asked.grammar("D")
        self.assertEqual({goal.type: grammar.least_term(number) for number, goal in enumerate(grammar.goals)},
                         dict(zip("DBA", terms("h(x, x, x)", "g(x)", "x"))))

    def test_a_term_of_least_height_may_be_long(self) -> None:
        with session("".join(f"comp f{step} : A{step} -> A{step + 1}\n" for step in range(900)) + "comp x : A0\n") as steps:
            term = steps.grammar("A900").least_term()
        assert term
        self.assertEqual((term.length, term.depth), (901, 901))

    def test_an_application_of_any_term(self) -> None:
        function, argument = Goal("A -> B", 1, (Rule("f", ()),)), Goal("A", 1, (Rule("x", ()),))
        made = Grammar((Goal("B", 2, (Rule(None, (1, 2)),)), function, argument))
        self.assertEqual(made.least_term(), Term.parse("f(x)"))

    def test_the_rule_of_omega_has_no_component(self) -> None:
        with session("comp x : A\n") as one:
            self.assertEqual(one.grammar("omega").goals[0].rules, (clsynth.Rule("x", ()), clsynth.Rule(None, (0, 0))))


class Certificates(unittest.TestCase):
    def test_both_kinds_are_accepted(self) -> None:
        with session(LISTS) as lists:
            for goal, kind in (("Desc", clsynth.Inhabited), ("List(Str)", clsynth.Empty)):
                certificate = lists.certify(goal)
                self.assertIsInstance(certificate, kind)
                self.assertEqual(lists.verify(goal, certificate), Verdict(True))
                self.assertEqual(lists.verify(goal, "\n".join(certificate.lines())), Verdict(True))
                self.assertEqual(clsynth.parse_certificate(certificate.lines()), certificate)

    def test_a_wrong_one_is_refused(self) -> None:
        with session(CHAIN) as chain:
            self.assertEqual(chain.verify("A", clsynth.Empty(())), Verdict(False, 0, "goal"))
            self.assertEqual(chain.verify("B", "empty\nmember A\nqed\n"), Verdict(False, 1, "unblocked"))

    def test_it_has_one_end(self) -> None:
        with session(CHAIN) as chain:
            with self.assertRaises(clsynth.NoQed):
                chain.verify("A", "empty")
            with self.assertRaises(ValueError):
                chain.verify("A", "empty\nqed\ninhabit A\n")
            self.assertTrue(chain.inhabited("A"))


class Errors(unittest.TestCase):
    def test_each_has_its_class(self) -> None:
        queries: dict[str, Callable[[Session], object]] = {
            "long": lambda it: it.inhabited("A" + " " * 70_000),
            "deep": lambda it: it.inhabited("(" * 65 + "A" + ")" * 65),
            "syntax": lambda it: it.inhabited("A ->"),
            "reserved": lambda it: it.paths("omega"),
            "nodes": lambda it: it.inhabited(" * ".join(["A"] * 600)),
            "variable": lambda it: it.inhabited("$a"),
            "number": lambda it: it.page("A", 10_001),
            "unknown": lambda it: it.paths("g"),
            "duplicate": lambda it: it.add("x", "B"),
            "token": lambda it: it.has_type("g(x)", "A"),
            "refused": lambda it: it.add("g", "A -> $a"),
            "certificate": lambda it: it.verify("A", "empty\nhello\nqed"),
            "size": lambda it: it.is_subtype(tower(8), "omega"),
            "too-large": lambda it: it.inhabited("omega & A & B"),
            "wide": lambda it: it.inhabited(" & ".join(f"C{path}" for path in range(1, 12))),
            # The closure has three rules: `p` of D, `x`, and `f` of A. Filtered, it has six: two of A and two of the start, and the parts.
            "filter-large": lambda it: it.filtered_page("all", "A", 1),
            "too-many-terms": lambda it: it.page("A", 1000),
        }
        options = {"too-large": {"max_goals": 1}, "filter-large": {"max_rules": 3}, "too-many-terms": {"pool": 5}}
        for word, ask in queries.items():
            repository = "comp p : D -> A & B\n" + (WIDE if word == "wide" else CHAIN) + "filter all accepts Q\nother all Q\n"
            with self.subTest(word), session(repository, **options.get(word, {})) as chain:
                with self.assertRaises(clsynth.ERRORS[word]):
                    ask(chain)
                self.assertTrue(chain.is_subtype("A & B", "B"), "the session goes on")
        self.assertEqual(set(clsynth.ERRORS) - set(queries), {"utf8", "no-qed"})

    def test_what_is_no_type_and_no_term(self) -> None:
        wrong: Any = None
        with session(CHAIN) as chain:
            asked: list[Callable[[], object]] = [
                lambda: chain.inhabited(wrong), lambda: chain.page(wrong, 1), lambda: chain.verify(wrong, "empty\nqed"),
                lambda: chain.paths(wrong), lambda: chain.has_type(wrong, "A"), lambda: chain.has_type("x", wrong),
                lambda: chain.is_subtype("A", wrong), lambda: chain.page("A", 1, after=3),  # type: ignore[arg-type]
                lambda: chain.filtered_page(wrong, "A", 1), lambda: chain.batch(wrong), lambda: chain.batch("AB"),
                lambda: chain.batch(["A", wrong]), lambda: chain.batch(clsynth.omega),  # type: ignore[arg-type]
                lambda: session(wrong), lambda: session(b"comp x : A\n"),  # type: ignore[arg-type]
            ]
            for ask in asked:
                with self.assertRaises(TypeError):
                    ask()

    def test_where_nobody_catches_them_they_are_explained(self) -> None:
        with session(CHAIN) as chain, self.assertRaises(clsynth.UnknownInTerm) as unknown:
            chain.has_type("ff(x)", "A")
        self.assertEqual(unknown.exception.__notes__, [
            "query:1:7: error: token: this name in the term is none of a component\n    typed ff(x) : A\n          ^\n    Did you mean `f`?"
        ])
        with self.assertRaises(clsynth.RepositoryRefused) as refused:
            session("# a comment\ncomp x A\n")
        self.assertTrue(refused.exception.__notes__[0].startswith("repository:2:8: error: syntax: "))

    def test_what_they_tell(self) -> None:
        with session(CHAIN) as chain:
            with self.assertRaises(clsynth.SyntaxFault) as syntax:
                chain.inhabited("A ->")
            self.assertEqual((syntax.exception.byte, syntax.exception.query), (12, "inhabit A ->"))
            with self.assertRaises(clsynth.BadCertificate) as bad:
                chain.verify("A", "empty\nhello\nqed")
            self.assertEqual(bad.exception.line, 2)
            with self.assertRaises(clsynth.UnknownComponent) as unknown:
                chain.paths("g")
            self.assertEqual(unknown.exception.detail, "g")

    def test_what_is_no_line_is_not_sent(self) -> None:
        with session(CHAIN) as chain:
            left = chain.bytes_left
            with self.assertRaises(ValueError):
                chain.inhabited("A\ninhabit B")
            with self.assertRaises(clsynth.LineTooLong):
                chain.verify("A" + " " * 70_000, "empty\nqed")
            with self.assertRaises(clsynth.NotUtf8):
                chain.verify("\ud800", "empty\nqed")
            self.assertEqual(chain.bytes_left, left)

    def test_what_is_not_utf8_is_an_error_of_its_query(self) -> None:
        with session(CHAIN) as chain:
            for text in ("\ud800", "\udcff"):
                with self.assertRaises(clsynth.NotUtf8):
                    chain.inhabited(text)
            self.assertTrue(chain.inhabited("A"))
        with self.assertRaises(clsynth.RepositoryRefused) as refused:
            session("comp x : A\ntext x = \udcff\n")
        self.assertEqual(str(refused.exception), "line 2: utf8")

    def test_a_refused_repository(self) -> None:
        with self.assertRaises(clsynth.RepositoryRefused) as refused:
            session("comp x : A\ncomp x : B\n" + "# a comment\n" * 10_000)
        self.assertEqual((refused.exception.line, refused.exception.words), (2, "duplicate-component x"))


class Processes(unittest.TestCase):
    def test_a_fault_has_the_name_of_the_status(self) -> None:
        for status in clsynth.Status:
            with self.subTest(status.name), self.assertRaises(clsynth.ProcessFault) as fault:
                Session(CHAIN, program=fake(self, f"exit {status.value}"))
            self.assertEqual(fault.exception.status, status)
            self.assertIn(status.name, str(fault.exception))

    def test_a_fault_within_a_reply(self) -> None:
        session = Session(CHAIN, program=fake(self, "echo yes; read -r line; echo term x; exit 5"))
        with self.assertRaises(clsynth.ProcessFault) as fault:
            list(session.terms("A"))
        self.assertEqual(fault.exception.status, clsynth.Status.NO_MEMORY)

    def test_a_fault_at_the_end(self) -> None:
        session = Session(CHAIN, program=fake(self, "echo yes; cat >/dev/null; exit 4"))
        with self.assertRaises(clsynth.ProcessFault) as fault:
            session.close()
        self.assertEqual(fault.exception.status, clsynth.Status.WRITE_FAULT)

    def test_a_signal_has_no_status(self) -> None:
        with self.assertRaises(clsynth.ProcessFault) as fault:
            Session(CHAIN, program=fake(self, "kill -9 $$"))
        self.assertEqual((fault.exception.code, fault.exception.status), (-9, None))

    def test_words_that_the_program_does_not_take(self) -> None:
        cases: list[tuple[dict[str, Any], str]] = [
            ({"workers": 65}, "--workers 65"), ({"pool": "unheard"}, "--pool unheard"), ({"words": ["--x", "y"]}, "--x y"),
        ]
        for options, words in cases:
            with self.assertRaises(clsynth.UsageFault) as fault:
                session(CHAIN, **options)
            self.assertEqual((fault.exception.status, fault.exception.words), (clsynth.Status.USAGE, (PROGRAM, *words.split())))
            self.assertIn(f"It doesn't take the words `{words}`", str(fault.exception))

    def test_words_that_are_passed_on(self) -> None:
        with session(CHAIN, words=["--pool", "5"]) as chain, self.assertRaises(clsynth.TooManyTerms):
            chain.page("A", 10)
        newer = fake(self, f'[ "$*" = "--pool unbounded --new" ] || exit 1; exec {PROGRAM}')
        with Session(CHAIN, program=newer, pool="unbounded", words=["--new"]) as chain:
            self.assertTrue(chain.inhabited("A"))

    def test_another_program(self) -> None:
        for reply in ("yes\\nmaybe", "yes\\n\\377", "yes\\n", "refused x y", "refused 1", "hello"):
            program = fake(self, f"printf '{reply}\\n'; exec cat >/dev/null")
            with self.subTest(reply), self.assertRaises(clsynth.BadReply), Session(CHAIN, program=program) as asked:
                asked.inhabited("A")
        for reply in ("term f(", "text 3", "more of it"):
            program = fake(self, f"printf 'yes\\n{reply}\\ndone\\n'; exec cat >/dev/null")
            with self.subTest(reply), self.assertRaises(clsynth.BadReply), Session(CHAIN, program=program) as asked:
                asked.page("A", 3)

    def test_an_error_of_a_later_version(self) -> None:
        program = fake(self, "printf 'yes\\nerror new 5 6\\n'; exec cat >/dev/null")
        with self.assertRaises(clsynth.QueryError) as error, Session(CHAIN, program=program) as asked:
            asked.inhabited("A")
        self.assertEqual((type(error.exception), error.exception.detail), (clsynth.QueryError, "new 5 6"))

    def test_a_program_that_can_not_be_run(self) -> None:
        program = Path(fake(self, ""))
        program.write_bytes(b"\x7fELF")
        with self.assertRaisesRegex(clsynth.ProgramNotFound, "Exec format error"):
            Session(CHAIN, program=program)

    def test_a_program_that_ended_between_two_queries(self) -> None:
        with session(CHAIN) as chain:
            assert chain._program
            chain._program.kill()
            wait_until(lambda: chain._program and chain._program.has_ended)
            self.assertTrue(chain.inhabited("A"))

    def test_a_closed_session(self) -> None:
        chain = session(CHAIN)
        chain.close()
        chain.close()
        with self.assertRaises(clsynth.SessionClosed):
            chain.inhabited("A")

    def test_an_error_of_the_caller_ends_the_program(self) -> None:
        with self.assertRaises(KeyError), session(CHAIN):
            raise KeyError


if __name__ == "__main__":
    unittest.main()
