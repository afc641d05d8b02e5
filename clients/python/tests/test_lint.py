"""Tests of what is warned of."""

from __future__ import annotations

import asyncio
import random
import time
import unittest
import warnings
from collections.abc import Callable
from concurrent.futures import ThreadPoolExecutor

from documents import TOP
from support import PROGRAM, session

from clsynth import AsyncSession, Repository, Session, SessionPool, map_queries, queries
from clsynth.certificates import Empty
from clsynth.diagnostics import Diagnostic, Severity
from clsynth.lint import RepositoryWarning, lint, lint_input
from clsynth.reach import blocked_components
from clsynth.similar import SlipIndex, closest
from clsynth.survey import Survey
from clsynth.transcripts import Input


def places(found: list[Diagnostic], severity: Severity = Severity.WARNING) -> list[tuple[int, int | None, str]]:
    """The line, the byte and the first code of each that is of this severity."""
    return [(it.line, it.byte, it.words.split("`")[1] if "`" in it.words else it.words) for it in found if it.severity is severity]


class Wanted(unittest.TestCase):
    def test_what_nothing_makes(self) -> None:
        found = lint("comp x : Int\ncomp f : Imt -> B\n")
        self.assertEqual(places(found), [(2, 9, "Imt")])
        self.assertEqual(found[0].notes, ("Did you mean `Int`?",))
        self.assertEqual(found[0].shown("t.cls"), """\
t.cls:2:10: warning: `Imt` is wanted, and no component makes it
    comp f : Imt -> B
             ^
    Did you mean `Int`?""")

    def test_inside_of_constructors(self) -> None:
        self.assertEqual(places(lint("comp x : List(Int)\ncomp f : List(Imt) -> B\n")), [(2, 14, "Imt")])
        # A term of `Sink(omega)` has each `Sink(..)` if it is contravariant.
        self.assertEqual(places(lint("variance Sink contra\ncomp x : Sink\ncomp f : Sink(Imt) -> B\n")), [])

    def test_what_is_below_makes_it(self) -> None:
        self.assertEqual(places(lint("sub Nat Int\nsub Int Num\ncomp x : Nat\ncomp f : Num -> B\n")), [])
        self.assertEqual(places(lint("sub Nat Int\ncomp x : Int\ncomp f : Nat -> B\n")), [(3, 9, "Nat")])

    def test_types_of_kinds(self) -> None:
        self.assertEqual(places(lint("kind a = Int | Imt\ncomp x : Int\ncomp f : $a -> B\n")), [(1, 15, "Imt")])
        self.assertEqual(places(lint("kind a = A -> B | B -> C\ncomp x : A\ncomp f : $a\n")), [])

    def test_what_a_function_is_given(self) -> None:
        # Nothing makes an `A`, but `map` gives one to `inc`.
        self.assertEqual(lint("comp map : (A -> B) -> C\ncomp inc : A -> B\n"), [])

    def test_goals_of_queries(self) -> None:
        self.assertEqual(places(lint("comp x : Str\n", ["inhabit Strg", "list Str max 1 take 1"])), [(3, 8, "Strg")])
        self.assertEqual(places(lint("comp x : Str\n", [queries.inhabited("Strg")])), [(3, 8, "Strg")])
        self.assertEqual(places(lint("comp x : A\n", ["typed x : B & A"])), [(3, 10, "B")])
        self.assertEqual(places(lint("comp x : A\n", ["batch A | A & B | C"])), [(3, 14, "B"), (3, 18, "C")])
        self.assertEqual(places(lint("comp x : A\n", ["sub B <= A", "paths x"])), [])

    def test_a_type_that_is_omega_wants_nothing(self) -> None:
        self.assertEqual(lint("comp f : (X -> omega) -> B\n"), [])


class Applied(unittest.TestCase):
    def test_a_circle(self) -> None:
        text = "comp names : Lines\ncomp sign : Lines -> Key -> Signed\ncomp publish : Signed -> Public\ncomp extract : Public -> Key\n"
        found = lint(text)
        self.assertEqual(places(found), [(2, 21, "sign"), (3, 15, "publish"), (4, 15, "extract")])
        self.assertEqual(found[0].words, "`sign` can't be applied: it takes `Key` as argument 2, and no term has that")

    def test_one_arrow_of_several_is_enough(self) -> None:
        self.assertEqual(lint("comp x : A\ncomp f : (A -> B) & (C -> C)\n"), [])

    def test_choices_of_a_variable_are_told_apart(self) -> None:
        text = "kind load = Empty | Loaded\ncomp start : Empty\ncomp right : $load -> $load\ncomp drop : Loaded -> Done\n"
        self.assertEqual(places(lint(text)), [(4, 12, "drop")])
        self.assertEqual(places(lint(text.replace("start : Empty", "start : Loaded"))), [])

    def test_functions_that_are_taken(self) -> None:
        circle = "kind a = A\ncomp id : $a -> $a\ncomp f : A -> B\n"
        self.assertEqual(places(lint(circle)), [(2, None, "id"), (3, 9, "f")])
        self.assertEqual(places(lint(circle + "comp map : (A -> B) -> C\n")), [(2, None, "id")])

    def test_products(self) -> None:
        self.assertEqual(places(lint("comp x : A\ncomp f : A * A -> A\n")), [(2, 11, "f")])
        self.assertEqual(places(lint("comp x : A\ncomp p : A -> A * A\ncomp f : A * A -> A\n")), [])

    def test_what_is_warned_of_is_so(self) -> None:
        """The program finds no term of what is said to have none, over repositories by chance."""
        chance = random.Random(11)
        count = 0
        for _ in range(150):
            text = random_repository(chance)
            survey = Survey(Input(text.encode()))
            with Session(text, program=PROGRAM, lint=False) as asked:
                for place, blocked in blocked_components(survey).items():
                    if not blocked.sources:
                        count += 1
                        self.assertIsInstance(asked.certify(blocked.head), Empty, text + survey.components[place].name)
                for name in (it.words.split("`")[1] for it in lint(text) if "is wanted" in it.words):
                    count += 1
                    self.assertFalse(asked.inhabited(name), text)
        self.assertGreater(count, 50)


def random_repository(chance: random.Random) -> str:
    def type(depth: int) -> str:
        form = chance.randrange(6) if depth else 0
        if form < 2:
            return chance.choice("ABCDEF")
        if form == 2:
            return f"{chance.choice('AG')}({type(depth - 1)})"
        sign = {3: "->", 4: "&", 5: "->"}[form]
        return f"({type(depth - 1)} {sign} {type(depth - 1)})"
    lines = ["kind a = A | B", "sub C D", "sub D E", "variance G contra", "comp y : $a -> $a"]
    return "\n".join([*lines, *(f"comp x{number} : {type(chance.randrange(1, 4))}" for number in range(6))]) + "\n"


class Unused(unittest.TestCase):
    def test_lines(self) -> None:
        text = "kind z = A\nvariance Foo contra\nsub Intt Number\nsub Int Number\ncomp x : Int\ncomp g : Number -> A\n"
        found = lint(text)
        self.assertEqual(places(found), [(1, 5, "$z"), (2, 9, "Foo"), (3, 4, "Intt")])
        self.assertEqual(found[2].notes, ("Did you mean `Int`?",))

    def test_an_upper_constructor_may_be_asked_for(self) -> None:
        self.assertEqual(lint("sub Int Number\ncomp x : Int\n"), [])
        self.assertEqual(places(lint("sub Int Number\ncomp x : Int\n", ["inhabit Number"])), [])
        self.assertEqual(places(lint("sub Int Number\ncomp x : Int\n", ["inhabit Int"])), [(1, 8, "Number")])
        self.assertEqual(places(lint("sub Int Number\nsub Number Any\ncomp x : Int\n", ["inhabit Any"])), [])


class Hints(unittest.TestCase):
    def test_made_and_not_wanted(self) -> None:
        text = "comp x : Int\ncomp f : Int -> Done & Extra\n"
        self.assertEqual(lint(text), [])
        self.assertEqual(places(lint(text, ["inhabit Done"]), Severity.HINT), [(2, 23, "Extra")])

    def test_a_name_that_stands_once(self) -> None:
        text = "kind a = Int | Strr\ncomp x : Str & Int\ncomp f : List($a) -> Str\ncomp g : List($a) & Str -> List($a)\n"
        found = [it for it in lint(text) if it.severity is Severity.HINT]
        self.assertEqual(places(found, Severity.HINT), [(1, 15, "Strr")])
        self.assertEqual(found[0].notes, ("Did you mean `Str`?",))

    def test_numbers_in_names_are_no_slips(self) -> None:
        self.assertEqual(SlipIndex(["Room1", "Room2", "Rom1"]).near("Room1"), ["Rom1"])
        self.assertEqual(SlipIndex(["A1", "B1", "A2"]).near("A1"), [])

    def test_slips(self) -> None:
        index = SlipIndex(["List", "Int"])
        for name, wanted in {"Lit": ["List"], "Liist": ["List"], "Lisp": ["List"], "Lsit": ["List"], "Lssit": [], "Itn": ["Int"], "List": []}.items():
            with self.subTest(name):
                self.assertEqual(index.near(name), wanted)
        self.assertEqual(closest("INHABIT", ["list", "inhabit"]), "inhabit")
        self.assertIsNone(closest("hello", ["list", "inhabit"]))


class Errors(unittest.TestCase):
    def test_lines_of_no_form(self) -> None:
        found = lint("comp x : A\ncomp f : A ->\nCOMP y : A\n", ["list A take 3", "inhabit A"])
        self.assertEqual([(it.line, it.byte) for it in found], [(2, 13), (3, 0), (5, 7)])
        self.assertEqual({it.severity for it in found}, {Severity.ERROR})

    def test_other_faults_of_lines(self) -> None:
        deep = "comp x : " + "(" * 65 + "A" + ")" * 65
        found = lint_input(Input(b"comp x : \xff\n" + deep.encode() + b"\n# " + b"x" * 65_536 + b"\nend\n"))
        self.assertEqual([(it.line, it.words.split(":")[0]) for it in found], [(1, "utf8"), (2, "deep"), (3, "long")])

    def test_anything_is_read(self) -> None:
        chance = random.Random(5)
        pieces = "comp kind sub text cost end a B : = | ( ) -> & * $ list max 3 omega é \n \n".split(" ")
        for _ in range(400):
            lint(" ".join(chance.choice(pieces) for _ in range(40)))


class Examples(unittest.TestCase):
    def test_no_warning_is_given_for_an_example(self) -> None:
        for repository in sorted(TOP.glob("examples/*/repository.cls")):
            text = repository.read_text() + repository.with_name("queries.cls").read_text()
            found = [it.shown(str(repository)) for it in lint(text) if it.severity is not Severity.ERROR]
            self.assertEqual(found, [])
            self.assertEqual(lint(repository.read_text()), [])


class Sessions(unittest.TestCase):
    TEXT = "comp x : Int\ncomp f : Imt -> B\n"

    def test_a_session_warns(self) -> None:
        with self.assertWarns(RepositoryWarning) as warned:
            Session(self.TEXT, program=PROGRAM).close()
        self.assertIn("repository:2:10: warning: `Imt` is wanted", str(warned.warning))
        self.assertEqual(warned.filename, __file__)
        repository = Repository()
        repository.component("x", "Int")
        repository.component("f", "Imt -> B")
        with self.assertWarns(RepositoryWarning):
            session(repository, lint=True).close()

    def test_several_sessions_warn_once(self) -> None:
        def mapped(lint: bool) -> None:
            with ThreadPoolExecutor(2) as executor:
                list(map_queries(executor, self.TEXT, [queries.inhabited("B")] * 5, batch=1, program=PROGRAM, lint=lint))

        async def asked(lint: bool) -> None:
            async with AsyncSession(self.TEXT, program=PROGRAM, lint=lint):
                pass

        openings: list[Callable[[bool], None]] = [
            lambda lint: SessionPool(self.TEXT, 2, program=PROGRAM, lint=lint).close(), mapped, lambda lint: asyncio.run(asked(lint)),
        ]
        for opening in openings:
            for lint, count in ((True, 1), (False, 0)):
                with warnings.catch_warnings(record=True) as caught:
                    warnings.simplefilter("always", RepositoryWarning)
                    opening(lint)
                self.assertEqual([warning.filename for warning in caught], [__file__] * count)

    def test_it_can_be_told_not_to(self) -> None:
        with warnings.catch_warnings():
            warnings.simplefilter("error")
            Session(self.TEXT, program=PROGRAM, lint=False).close()
            Session("comp x : Int\ncomp f : Int -> B\n", program=PROGRAM).close()

    def test_a_refused_repository_gives_no_warning(self) -> None:
        with warnings.catch_warnings(), self.assertRaisesRegex(Exception, "cycle"):
            warnings.simplefilter("error", RepositoryWarning)
            Session(self.TEXT + "sub A B\nsub B A\n", program=PROGRAM)

    def test_many_warnings_are_cut(self) -> None:
        text = "".join(f"comp f{number} : Imt{number} -> B\n" for number in range(30))
        with self.assertWarns(RepositoryWarning) as warned:
            Session(text, program=PROGRAM).close()
        self.assertEqual(len(warned.warnings), 21)
        self.assertIn("10 further warnings", str(warned.warnings[-1].message))


class Speed(unittest.TestCase):
    def test_a_repository_of_a_mebibyte(self) -> None:
        """Other work on the machine counts too, so the bound is four times what is promised. It is the time of the processor."""
        row = "kind load = Empty | Loaded\ncomp start : At(A0) & Empty\n"
        for number in range(990):
            moves = " & ".join(f"(At(A{number * 35 + step}) -> At(A{number * 35 + step + 1}))" for step in range(35))
            row += f"comp move{number} : ({moves}) & ($load -> $load)\n"
        self.assertGreater(len(row), 1_000_000)
        start = time.process_time()
        self.assertEqual(lint(row), [])
        self.assertLess(time.process_time() - start, 4)


if __name__ == "__main__":
    unittest.main()
