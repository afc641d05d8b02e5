"""Tests of what makes a session last: new programs, time bounds, cancelling, and where the program is found."""

from __future__ import annotations

import contextlib
import math
import os
import pickle
import signal
import subprocess
import sys
import threading
import time
import unittest
import unittest.mock
from collections.abc import Iterator
from pathlib import Path
from random import Random

from support import CHAIN, LISTS, PROGRAM, SOURCES, fake, freeze, session, take_interrupts, wait_until

import clsynth
from clsynth import Session, queries
from clsynth.program import Program


@contextlib.contextmanager
def counted_programs() -> Iterator[list[list[str]]]:
    """The words of each program that is started."""
    started: list[list[str]] = []
    start = Program.__init__

    def counting(self: Program, words: list[str]) -> None:
        started.append(words)
        start(self, words)

    with unittest.mock.patch.object(Program, "__init__", counting):
        yield started


def wide_query(goal: str, length: int) -> str:
    """The goal with blanks, so many characters in all."""
    return goal + " " * (length - len(goal))


class Restarts(unittest.TestCase):
    def test_a_session_takes_more_than_one_program_does(self) -> None:
        with counted_programs() as started, session(LISTS) as lists:
            for _ in range(40):
                self.assertTrue(lists.inhabited(wide_query("Desc", 60_000)))
                self.assertFalse(lists.inhabited(wide_query("List(Str)", 1_000)))
        # 17 times 61,018 bytes fit behind the repository, and 18 times don't: 40 pairs of queries take three programs.
        self.assertEqual(len(started), 3)

    def test_bytes_left_are_used_to_the_last(self) -> None:
        with counted_programs() as started, session(CHAIN) as chain:
            for _ in range(17):
                chain.inhabited(wide_query("A", 60_000))
            self.assertTrue(chain.inhabited(wide_query("A", chain.bytes_left - len("inhabit \n"))))
            self.assertEqual((chain.bytes_left, len(started)), (0, 1))
            self.assertTrue(chain.inhabited("A"))
            self.assertEqual(len(started), 2)
            self.assertEqual(chain.bytes_left, 1_048_576 - len(CHAIN + "end\nsub A <= omega\nsub omega <= omega\ninhabit A\n"))

    def test_pages_go_on_in_a_new_program(self) -> None:
        with session(CHAIN) as chain:
            sizes = []
            for term in chain.terms("A", page_size=3):
                sizes.append(term.length)
                if len(sizes) % 10 == 0:
                    for _ in range(17):
                        chain.inhabited(wide_query("A", 60_000))
        self.assertEqual(sizes, list(range(1, 65)))

    def test_a_new_program_has_the_components_of_the_one_before(self) -> None:
        with counted_programs() as started, session("kind a = A | Late\n" + CHAIN) as chain:
            chain.drop("x")
            chain.add("y", "New")
            chain.add("g", "New -> $a")
            chain.drop("y")
            chain.add("y", "New")
            asked = queries.page("A & Late", 9, max_size=4), queries.grammar("Early & New & Late & A")
            wanted = [repr(chain.ask(query)) for query in asked]
            self.assertEqual([str(term) for term in chain.page("omega", 9, max_size=1).entries], ["f", "g", "y"])
            assert chain._program
            chain._program.kill()
            wait_until(lambda: chain._program and chain._program.has_ended)
            self.assertEqual([repr(chain.ask(query)) for query in asked], wanted)
            self.assertEqual(len(started), 2)
            chain.drop("g")
            for _ in range(18):
                chain.inhabited(wide_query("A", 60_000))
            self.assertEqual(len(started), 3)
            self.assertFalse(chain.inhabited("A"))
            self.assertEqual([str(term) for term in chain.page("omega", 9, max_size=1).entries], ["f", "y"])

    def test_a_change_that_is_refused_is_not_made_later(self) -> None:
        with session(CHAIN) as chain:
            for change in (queries.add("x", "B"), queries.add("g", "$b"), queries.drop("g")):
                with self.assertRaises(clsynth.QueryError):
                    chain.ask(change)
            for _ in range(18):
                chain.inhabited(wide_query("A", 60_000))
            self.assertEqual([str(term) for term in chain.page("omega", 9, max_size=1).entries], ["x", "f"])

    def test_types_are_written_in_the_same_order(self) -> None:
        # Late comes first to the program, so it is written first, also by a program that never saw the first query.
        with session(CHAIN) as chain:
            self.assertFalse(chain.inhabited("Late"))
            self.assertEqual(chain.grammar("Early & Late").goals[0].type, "Late & Early")
            for _ in range(18):
                chain.inhabited(wide_query("A", 60_000))
            self.assertEqual(chain.grammar("Early & Late").goals[0].type, "Late & Early")
        with session(CHAIN) as chain:
            self.assertEqual(chain.grammar("Early & Late").goals[0].type, "Early & Late")
        with session(CHAIN, names=["Late"]) as chain:
            self.assertEqual(chain.grammar("Early & Late").goals[0].type, "Late & Early")
        with self.assertRaises(clsynth.BadName):
            session(CHAIN, names=["Late <= omega"])

    def test_names_of_queries_with_errors(self) -> None:
        # A query that isn't read brings no name, and so does a bad certificate. One that is too large brings its names.
        large = "A & B & C"
        for _ in range(8):
            large = f"({large}) -> A & B & C"
        with session("variance Sink contra\ncomp p : D -> Sink\n", max_goals=1) as sinks:
            with self.assertRaises(clsynth.UnknownInTerm):
                sinks.has_type("g", "Never")
            with self.assertRaises(clsynth.BadCertificate):
                sinks.verify("Fourth", "empty\nmember Never\nhello\nqed")
            sinks.verify("First", "empty\nmember Second\nqed")
            with self.assertRaises(clsynth.TypeTooLarge):
                sinks.verify(large, "empty\nmember Zeroth\nqed")
            with self.assertRaises(clsynth.ClosureTooLarge):
                sinks.inhabited("Sink(Third)")
            for _ in range(2):
                goal = sinks.grammar("Never & Third & Zeroth & Second & First & Fourth").goals[0].type
                self.assertEqual(goal, "Fourth & First & Second & Zeroth & Third & Never")
                for _ in range(18):
                    sinks.inhabited(wide_query("A", 60_000))

    def test_a_query_that_has_no_room_anywhere(self) -> None:
        with session(CHAIN + "# a comment\n" * 83_000) as narrow:
            with self.assertRaises(clsynth.InputFull):
                narrow.inhabited(wide_query("A", 60_000))
            self.assertTrue(narrow.inhabited("A"))

    def test_a_repository_that_is_too_long(self) -> None:
        with self.assertRaises(clsynth.RepositoryTooLong) as long:
            session(CHAIN + "# a comment\n" * 90_000)
        self.assertEqual(long.exception.limit, 1_048_576)

    def test_many_names_are_forgotten_where_they_take_the_room(self) -> None:
        # There is room for 88,000 bytes. A query has 12,606 or 12,906 of them, most of which are names. So a program that is told no
        # names takes 7, 6 and 6 queries.
        with counted_programs() as started, session(CHAIN + "# a comment\n" * 80_000) as narrow:
            for number in range(20):
                self.assertFalse(narrow.inhabited(" & ".join(f"N{number}_{place:036}" for place in range(300))))
            self.assertTrue(narrow.inhabited(wide_query("A", 60_000)))
        self.assertEqual(len(started), 4)

    def test_after_a_fault_a_new_program_answers(self) -> None:
        with session(CHAIN) as chain:
            with self.assertRaises(KeyboardInterrupt), unittest.mock.patch.object(Program, "text", side_effect=KeyboardInterrupt):
                chain.text_page("A", 3)
            self.assertEqual(len(chain.text_page("A", 3).entries), 3)


class Stops(unittest.TestCase):
    def test_a_query_has_a_time_bound(self) -> None:
        with session(CHAIN) as chain:
            freeze(chain)
            with self.assertRaises(clsynth.QueryTimeout) as late:
                chain.inhabited("A", timeout=0.2)
            self.assertEqual(late.exception.query, "inhabit A")
            self.assertIsInstance(late.exception, TimeoutError)
            self.assertTrue(chain.inhabited("A"), "the session goes on")

    def test_a_session_has_a_time_bound_for_all_queries(self) -> None:
        with session(CHAIN, timeout=3) as chain:
            freeze(chain)
            with self.assertRaises(clsynth.QueryTimeout):
                list(chain.terms("A"))
            self.assertTrue(chain.inhabited("A"))
            self.assertTrue(chain.inhabited("A", timeout=math.inf))

    def test_a_repository_is_bounded_too(self) -> None:
        with self.assertRaises(clsynth.QueryTimeout):
            Session(CHAIN, program=fake(self, "exec sleep 60"), timeout=0.1)

    def test_a_bound_that_is_not_reached_stops_nothing(self) -> None:
        with counted_programs() as started, session(CHAIN) as chain:
            for _ in range(20):
                self.assertTrue(chain.inhabited("A", timeout=60))
            for timer in threading.enumerate():
                if isinstance(timer, threading.Timer):
                    timer.join(30)
                    self.assertFalse(timer.is_alive())
        self.assertEqual(len(started), 1)

    def test_bounds_that_are_nearly_reached(self) -> None:
        # Whether a query is stopped is left to chance. It is answered rightly or not at all, and the session goes on.
        random = Random(1)
        with session(CHAIN) as chain:
            for _ in range(60):
                with contextlib.suppress(clsynth.QueryTimeout):
                    self.assertEqual(len(chain.page("A", 64, timeout=random.random() / 200).entries), 64)
            self.assertEqual(len(chain.page("A", 64).entries), 64)

    def test_another_thread_cancels(self) -> None:
        with session(CHAIN) as chain:
            freeze(chain)
            threading.Timer(0.2, chain.cancel).start()
            with self.assertRaises(clsynth.QueryCancelled):
                chain.certify("A")
            chain.cancel()
            self.assertTrue(chain.inhabited("A"), "nothing was under way when it was cancelled again")

    def test_an_error_of_the_caller_stops_what_another_thread_asks(self) -> None:
        found: list[type[BaseException]] = []

        def ask(chain: Session) -> None:
            try:
                chain.inhabited("A")
            except clsynth.ClsynthError as error:
                found.append(type(error))

        with self.assertRaises(KeyError), session(CHAIN) as chain:
            freeze(chain)
            asking = threading.Thread(target=ask, args=(chain,))
            asking.start()
            time.sleep(0.2)
            raise KeyError
        asking.join(30)
        self.assertEqual(found, [clsynth.QueryCancelled])

    def test_the_keyboard_interrupts_the_caller_alone(self) -> None:
        asked = (
            "import sys, time, clsynth\n"
            f"session = clsynth.Session({CHAIN!r})\nprogram = session._program\n"
            "try:\n    print('waits', flush=True)\n    time.sleep(60)\nexcept KeyboardInterrupt:\n"
            "    print(session.inhabited('A'), session._program is program)\n    session.close()\n"
        )
        environment = {**os.environ, "CLSYNTH": PROGRAM, "PYTHONPATH": str(SOURCES)}
        words = [sys.executable, "-c", asked]
        started = subprocess.Popen(
            words, stdout=subprocess.PIPE, text=True, env=environment, start_new_session=True, preexec_fn=take_interrupts
        )
        with started as process:
            assert process.stdout
            self.assertEqual(process.stdout.readline(), "waits\n")
            os.killpg(process.pid, signal.SIGINT)
            self.assertEqual(process.stdout.read(), "True True\n")

    def test_what_a_script_started_is_ended_with_it(self) -> None:
        with self.assertRaises(clsynth.QueryTimeout):
            # The shell stays, and so does what it waits for, which holds the output.
            Session(CHAIN, program=fake(self, "sleep 60; exit 0"), timeout=0.3)

    def test_threads_share_a_session(self) -> None:
        with session(CHAIN) as chain:
            found: list[list[clsynth.Term]] = []
            threads = [threading.Thread(target=lambda: found.append(list(chain.terms("A", page_size=2)))) for _ in range(4)]
            for thread in threads:
                thread.start()
            for thread in threads:
                thread.join()
        self.assertEqual([[term.length for term in some] for some in found], [list(range(1, 65))] * 4)


class Errors(unittest.TestCase):
    def test_too_many_terms_says_what_to_do(self) -> None:
        with session(CHAIN, pool=5) as chain, self.assertRaises(clsynth.TooManyTerms) as many:
            chain.page("A", 1000)
        self.assertIn("pool", str(many.exception))
        self.assertIn("1,000,000", many.exception.advice)

    def test_all_can_be_pickled(self) -> None:
        errors = [
            clsynth.RepositoryRefused(2, "deep"), clsynth.ProcessFault(5), clsynth.ProgramNotFound(["here"]), clsynth.InputFull(5, 3),
            clsynth.QueryTimeout("inhabit A"), clsynth.SyntaxFault("inhabit", "8"), clsynth.TooManyTerms("list A max 1 take 1"),
            clsynth.ParseFault("f(", 2, "a component", 3), clsynth.MissingFunction(["f"]), clsynth.TooManyComponents("it", 1001, 1000),
            clsynth.BadName("no"), clsynth.UsageFault(["clsynth", "--new"]), clsynth.BadReply("inhabit A", "maybe"),
        ]
        for error in errors:
            with self.subTest(type(error).__name__):
                again = pickle.loads(pickle.dumps(error))
                self.assertEqual((type(again), str(again), again.__dict__), (type(error), str(error), error.__dict__))


class Places(unittest.TestCase):
    def test_the_argument_comes_first_then_the_variable_then_the_path(self) -> None:
        folder = str(Path(PROGRAM).parent)
        with unittest.mock.patch.dict(os.environ, {"CLSYNTH": PROGRAM, "PATH": "/nowhere"}):
            self.assertEqual(clsynth.find_program("/bin/sh"), "/bin/sh")
            self.assertEqual(clsynth.find_program(), PROGRAM)
        with unittest.mock.patch.dict(os.environ, {"CLSYNTH": "", "PATH": folder}):
            self.assertEqual(clsynth.find_program(), PROGRAM)

    def test_what_is_told_and_missing_is_not_replaced(self) -> None:
        with unittest.mock.patch.dict(os.environ, {"CLSYNTH": "/nowhere/clsynth", "PATH": str(Path(PROGRAM).parent)}):
            for program in ("/nowhere/else", None):
                with self.assertRaises(clsynth.ProgramNotFound):
                    clsynth.find_program(program)

    def test_it_is_found_beside_the_package(self) -> None:
        beside = Path(clsynth.__file__).parent / "bin/clsynth"
        with unittest.mock.patch.dict(os.environ, {"CLSYNTH": "", "PATH": "/nowhere"}), \
                unittest.mock.patch("shutil.which", lambda place: place if place == str(beside) else None):
            self.assertEqual(clsynth.find_program(), str(beside))

    def test_where_it_looked_is_said(self) -> None:
        with unittest.mock.patch.dict(os.environ, {"CLSYNTH": "", "PATH": "/nowhere"}), self.assertRaises(clsynth.ProgramNotFound) as missing:
            Session(CHAIN)
        self.assertIsInstance(missing.exception, FileNotFoundError)
        for told in (
            "`program`: not given", "CLSYNTH: not set", "PATH: /nowhere", "clsynth/bin/clsynth", "a release has it", "tools/install PREFIX"
        ):
            self.assertIn(told, str(missing.exception))


if __name__ == "__main__":
    unittest.main()
