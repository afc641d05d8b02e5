"""Tests of many queries on many workers: pools of sessions, threads, processes, and a cluster of dask."""

from __future__ import annotations

import importlib.util
import os
import pickle
import shutil
import signal
import subprocess
import sys
import tempfile
import threading
import unittest
from concurrent.futures import Executor, Future, ProcessPoolExecutor, ThreadPoolExecutor
from pathlib import Path
from typing import Any

from support import CHAIN, LISTS, PROGRAM, SOURCES, fake, freeze, gated_program, not_tested, session, terms, wait_until

import clsynth
from clsynth import Query, SessionPool, map_queries, queries

# Late, Early and others aren't in the repository, so the order in which they come decides how types are written. Queries that aren't read
# don't count.
ASKED: list[Query[Any]] = [
    queries.has_type("nothing(x)", "Third"), queries.page("Third", 0), queries.inhabited("Third & $a"), queries.inhabited("Third" + " &" * 3),
    queries.page("Third", 1, after="f(nothing)"), queries.inhabited("(" * 65 + "Third" + ")" * 65),
    queries.inhabited(" & ".join(["Third"] * 400)), queries.inhabited("Third" + " " * 70_000), queries.paths("Third"),
    queries.inhabited("Late"), queries.grammar("Third & Early & Late"), queries.certify("Early & Late & List(Str)"), queries.inhabited("Desc &"),
    queries.page("Desc", 7), queries.text_page("List(Int) & Desc", 3), queries.paths("sort"), queries.paths("nothing"),
    queries.has_type("rev(sort(input))", "Desc"), queries.is_subtype("A & B", "B"), queries.sizes("Asc"), queries.grammar("Early & Late & Later"),
    queries.verify("Early", "empty\nmember Early\nqed"), queries.verify("Late", "empty\nqed"), queries.batch(["Third"] * 65),
    queries.batch(["Fourth", "Desc", "Fifth"]), queries.grammar("Third & Fifth & Fourth"),
]


def one_session(asked: list[Query[Any]]) -> list[Any]:
    """What one session answers to these queries in their order, and as text, since errors are equal to themselves only."""
    answers: list[Any] = []
    with session(LISTS) as lists:
        for query in asked:
            try:
                answers.append(lists.ask(query))
            except clsynth.QueryError as error:
                answers.append(repr(error))
    return answers


def answers_of(executor: Executor, asked: list[Query[Any]], **options: Any) -> list[Any]:
    found = map_queries(executor, LISTS, asked, program=PROGRAM, **options)
    return [repr(answer) if isinstance(answer, clsynth.QueryError) else answer for answer in found]


class Changes(unittest.TestCase):
    def test_they_are_asked_of_one_session(self) -> None:
        for query in (queries.add("y", "A"), queries.drop("x")):
            self.assertEqual(pickle.loads(pickle.dumps(query)), query)
            with SessionPool(CHAIN, 2, program=PROGRAM) as pool:
                with self.assertRaises(ValueError):
                    pool.ask(query)
                with self.assertRaises(ValueError):
                    pool.submit(query)
            with ThreadPoolExecutor(1) as executor, self.assertRaises(ValueError):
                answers_of(executor, [query])


class Queries(unittest.TestCase):
    def test_they_are_values(self) -> None:
        for query in ASKED:
            self.assertEqual(pickle.loads(pickle.dumps(query)), query)
        self.assertEqual(len(set(ASKED)), len(ASKED))
        for lines in ((), ("inhabit A\ninhabit B",), ("",), (" # inhabit A",)):
            with self.assertRaises(ValueError):
                Query(lines, print)


class Executors(unittest.TestCase):
    def test_names_of_queries_with_errors(self) -> None:
        with ThreadPoolExecutor(3) as executor:
            found = answers_of(executor, ASKED, batch=1)
        self.assertEqual(found[10].goals[0].type, "Late & Third & Early")

    def test_threads(self) -> None:
        with ThreadPoolExecutor(3) as executor:
            for batch in (1, 3, 100):
                self.assertEqual(answers_of(executor, ASKED * 3, batch=batch), one_session(ASKED * 3))
            self.assertEqual(list(map_queries(executor, LISTS, [])), [])

    def test_processes(self) -> None:
        with ProcessPoolExecutor(2) as executor:
            self.assertEqual(answers_of(executor, ASKED * 3, batch=4), one_session(ASKED * 3))

    def test_a_pool_that_lost_a_process(self) -> None:
        asked = [queries.page("Desc", count) for count in range(1, 60)]
        with tempfile.TemporaryDirectory() as name, ProcessPoolExecutor(2) as executor:
            folder = Path(name)
            found = map_queries(executor, LISTS, asked, program=gated_program(folder, 3), batch=5)
            wait_until(lambda: len(list(folder.glob("run_*"))) == 3)
            os.kill(next(iter(executor._processes)), signal.SIGKILL)
            (folder / "gate").touch()
            self.assertEqual(list(found), one_session(asked))

    def test_a_pool_that_is_broken_already(self) -> None:
        with ProcessPoolExecutor(1) as executor:
            with self.assertRaises(Exception):
                executor.submit(os._exit, 1).result()
            self.assertEqual(answers_of(executor, ASKED), one_session(ASKED))

    def test_a_program_that_is_killed_once(self) -> None:
        with tempfile.TemporaryDirectory() as folder, ThreadPoolExecutor(1) as executor:
            killed = Path(folder, "killed")
            once = fake(self, f"[ -e {killed} ] || {{ : >{killed}; kill -9 $$; }}\nexec {PROGRAM} \"$@\"\n")
            always = fake(self, "kill -9 $$")
            found = map_queries(executor, LISTS, [queries.inhabited("Desc")], program=once)
            self.assertEqual((list(found), killed.exists()), ([True], True))
            with self.assertRaises(clsynth.ProcessFault):
                list(map_queries(executor, LISTS, [queries.inhabited("Desc")], program=always))

    def test_what_stops_a_session_is_raised(self) -> None:
        with ThreadPoolExecutor(2) as executor:
            with self.assertRaises(clsynth.RepositoryRefused):
                list(map_queries(executor, "comp x : $a\n", [queries.inhabited("A")], program=PROGRAM))
            with self.assertRaises(clsynth.QueryTimeout):
                list(map_queries(executor, CHAIN, [queries.inhabited("A")], program=fake(self, "exec sleep 60"), timeout=0.1))
            with self.assertRaises(clsynth.ProgramNotFound):
                list(map_queries(executor, CHAIN, [queries.inhabited("A")], program="/nowhere/clsynth"))
            with self.assertRaises(ValueError):
                map_queries(executor, CHAIN, [], batch=0)

    def test_what_is_not_wanted_is_not_done(self) -> None:
        submitted: list[Future[Any]] = []

        class Noting(ThreadPoolExecutor):
            def submit(self, *given: Any, **named: Any) -> Future[Any]:
                submitted.append(super().submit(*given, **named))
                return submitted[-1]

        with Noting(1) as executor:
            found = map_queries(executor, LISTS, ASKED * 20, program=PROGRAM, batch=1)
            next(found)
            found.close()  # type: ignore[attr-defined]
        self.assertTrue(any(future.cancelled() for future in submitted))


class Pools(unittest.TestCase):
    def test_queries_side_by_side(self) -> None:
        asked = [queries.page("Desc", count) for count in range(1, 40)]
        with SessionPool(LISTS, 3, program=PROGRAM) as pool:
            answers = [pool.submit(query) for query in asked]
            self.assertEqual([answer.result() for answer in answers], one_session(asked))
            self.assertEqual(pool.ask(queries.page("Desc", 1)).entries, terms("rev(sort(input))"))
            with self.assertRaises(clsynth.SyntaxFault):
                pool.ask(queries.inhabited("A ->"))
        with self.assertRaises(RuntimeError):
            pool.submit(asked[0])

    def test_each_has_a_session_of_its_own(self) -> None:
        meeting = threading.Barrier(3, timeout=30)

        def meet(pool: SessionPool) -> int:
            with pool.session() as lent:
                meeting.wait()
                return id(lent)

        with SessionPool(CHAIN, 3, program=PROGRAM) as pool, ThreadPoolExecutor(3) as threads:
            self.assertEqual(len(set(threads.map(meet, [pool] * 3))), 3)

    def test_an_error_of_the_caller_stops_what_is_asked(self) -> None:
        with self.assertRaises(KeyError), SessionPool(CHAIN, 2, program=PROGRAM) as pool:
            for lent in [pool._idle.get() for _ in range(2)]:
                freeze(lent)
                pool._idle.put(lent)
            asked = [pool.submit(queries.inhabited("A")) for _ in range(10)]
            wait_until(lambda: sum(answer.running() for answer in asked) == 2)
            raise KeyError
        self.assertEqual([answer.cancelled() for answer in asked], [False] * 2 + [True] * 8)
        for answer in asked[:2]:
            self.assertIsInstance(answer.exception(30), clsynth.QueryCancelled | clsynth.SessionClosed)
        with self.assertRaises(clsynth.SessionClosed):
            pool.ask(queries.inhabited("A"))

    def test_a_program_that_was_killed(self) -> None:
        with SessionPool(CHAIN, 2, program=PROGRAM) as pool:
            with pool.session() as lent:
                assert lent._program
                lent._program.kill()
                wait_until(lambda: lent._program and lent._program.has_ended)
            answers = [pool.submit(queries.inhabited("A")) for _ in range(6)]
            self.assertEqual([answer.result() for answer in answers], [True] * 6)

    def test_names_have_one_order(self) -> None:
        with SessionPool(LISTS, 2, program=PROGRAM, names=["Late", "Early"]) as pool:
            for _ in range(4):
                self.assertEqual(pool.ask(queries.grammar("Early & Late")).goals[0].type, "Late & Early")

    def test_faults(self) -> None:
        with self.assertRaises(ValueError):
            SessionPool(LISTS, 0, program=PROGRAM)
        with self.assertRaises(clsynth.RepositoryRefused):
            SessionPool("comp x : $a\n", 2, program=PROGRAM)


def python_with_distributed() -> str | None:
    """A Python that has dask's `distributed`: this one, or that of the system."""
    if importlib.util.find_spec("distributed"):
        return sys.executable
    system = shutil.which("python3", path="/usr/bin")
    found = system and subprocess.run([system, "-c", "import distributed"], capture_output=True).returncode == 0
    return system if found else None


class Dask(unittest.TestCase):
    def test_a_cluster_that_loses_a_worker(self) -> None:
        python = python_with_distributed() or not_tested(self, "a cluster of dask: distributed isn't there (python3-distributed)")
        environment = {**os.environ, "PYTHONPATH": os.pathsep.join([str(SOURCES), str(Path(__file__).parent)]), "CLSYNTH": PROGRAM}
        ran = subprocess.run([python, str(Path(__file__).with_name("dask_cluster.py"))], env=environment, capture_output=True, text=True, timeout=300)
        self.assertEqual(ran.returncode, 0, ran.stderr)
        self.assertEqual(ran.stdout.splitlines()[-1], "200 answers, and one worker of 2 was lost")


if __name__ == "__main__":
    unittest.main()
