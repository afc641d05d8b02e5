"""Tests of sessions for asyncio."""

from __future__ import annotations

import asyncio
import unittest

from support import CHAIN, LISTS, ONCE, PROGRAM, fake, freeze, session, terms

import clsynth
from clsynth import AsyncSession, Repository


class Answers(unittest.IsolatedAsyncioTestCase):
    async def test_each_method_answers_as_a_session(self) -> None:
        async with AsyncSession(LISTS, program=PROGRAM) as lists:
            with session(LISTS) as other:
                self.assertTrue(await lists.is_subtype("A & B", "B"))
                self.assertEqual(await lists.paths("sort"), other.paths("sort"))
                self.assertTrue(await lists.has_type("sort(input)", "Asc"))
                self.assertFalse(await lists.inhabited("List(Str)"))
                self.assertEqual(await lists.batch(["Asc", "List(Str)"]), other.batch(["Asc", "List(Str)"]))
                self.assertEqual(await lists.page("Asc", 3, max_size=4, after="input"), other.page("Asc", 3, max_size=4, after="input"))
                self.assertEqual(await lists.text_page("Asc", 3), other.text_page("Asc", 3))
                self.assertEqual(await lists.grammar("Asc"), other.grammar("Asc"))
                certificate = await lists.certify("List(Str)")
                self.assertEqual(certificate, other.certify("List(Str)"))
                self.assertEqual(await lists.verify("List(Str)", certificate), clsynth.Verdict(True))
                self.assertTrue((await lists.sizes("Asc")).is_infinite)
                self.assertEqual(len(await lists.history("Int")), 2)
                self.assertEqual([term async for term in lists.terms("Asc", max_size=5, page_size=2)], list(other.terms("Asc", max_size=5)))
                self.assertEqual([entry async for entry in lists.texts("Asc", max_size=5, page_size=2)], list(other.texts("Asc", max_size=5)))

    async def test_terms_that_a_filter_accepts(self) -> None:
        async with AsyncSession(ONCE, program=PROGRAM) as trees:
            wanted = terms("x", "f(x)", "g(x)", "f(g(x))", "g(f(x))", "g(g(x))")
            self.assertEqual(await trees.filtered_page("once", "A", 2), clsynth.Page(wanted[:2], True))
            self.assertEqual([term async for term in trees.filtered("once", "A", max_size=3, page_size=2)], wanted)

    async def test_components_come_and_go(self) -> None:
        async with AsyncSession(CHAIN, program=PROGRAM) as chain:
            await chain.add("y", "A")
            await chain.drop("f")
            self.assertEqual([term async for term in chain.terms("A")], terms("x", "y"))

    async def test_values(self) -> None:
        numbers = Repository()
        numbers.component("zero", "Nat", call=0)
        numbers.component("next", "Nat -> Nat", call=lambda it: it + 1)
        async with AsyncSession(numbers, program=PROGRAM) as asked:
            self.assertEqual([value async for value in asked.values("Nat", page_size=7)], list(range(64)))
            self.assertEqual([value async for value in asked.values("Nat", {"zero": "", "next": "{}s".format}, max_size=3)], ["", "s", "ss"])

    async def test_tasks_take_turns(self) -> None:
        async with AsyncSession(CHAIN, program=PROGRAM) as chain:
            found = await asyncio.gather(*(chain.page("A", count) for count in range(1, 30)))
        self.assertEqual([len(page.entries) for page in found], list(range(1, 30)))

    async def test_sessions_go_side_by_side(self) -> None:
        async with AsyncSession(CHAIN, program=PROGRAM) as frozen, AsyncSession(CHAIN, program=PROGRAM) as chain:
            freeze(frozen)
            waiting = asyncio.create_task(frozen.inhabited("A"))
            self.assertEqual((await chain.page("A", 2)).entries, terms("x", "f(x)"))
            self.assertFalse(waiting.done())
            waiting.cancel()
            with self.assertRaises(asyncio.CancelledError):
                await waiting

    async def test_errors(self) -> None:
        with self.assertRaises(clsynth.RepositoryRefused):
            async with AsyncSession("comp x : $a\n", program=PROGRAM):
                self.fail()
        async with AsyncSession(CHAIN, program=PROGRAM) as chain:
            with self.assertRaises(clsynth.SyntaxFault):
                await chain.inhabited("A ->")
            self.assertTrue(await chain.inhabited("A"))
        with self.assertRaises(clsynth.SessionClosed):
            await chain.inhabited("A")


class Stops(unittest.IsolatedAsyncioTestCase):
    async def test_a_task_that_is_cancelled_stops_its_query(self) -> None:
        async with AsyncSession(CHAIN, program=PROGRAM) as chain:
            for pause in (0, 0.01, 0.2):
                freeze(chain)
                waiting = asyncio.create_task(chain.inhabited("A"))
                await asyncio.sleep(pause)
                waiting.cancel()
                with self.assertRaises(asyncio.CancelledError):
                    await waiting
                self.assertTrue(await chain.inhabited("A"), "the session goes on")

    async def test_a_task_that_is_cancelled_before_it_begins(self) -> None:
        async with AsyncSession(CHAIN, program=PROGRAM) as chain:
            waiting = asyncio.create_task(chain.inhabited("A"))
            waiting.cancel()
            with self.assertRaises(asyncio.CancelledError):
                await waiting
            self.assertTrue(await chain.inhabited("A"))

    async def test_only_the_task_that_is_cancelled_is_stopped(self) -> None:
        async with AsyncSession(CHAIN, program=PROGRAM) as chain:
            freeze(chain)
            first, second, third = (asyncio.create_task(chain.inhabited(goal)) for goal in ("A", "B", "A"))
            await asyncio.sleep(0.1)
            second.cancel()
            await asyncio.sleep(0.1)
            self.assertFalse(first.done())
            first.cancel()
            self.assertTrue(await third)
            for task in (first, second):
                with self.assertRaises(asyncio.CancelledError):
                    await task

    async def test_time_bounds(self) -> None:
        async with AsyncSession(CHAIN, program=PROGRAM) as chain:
            freeze(chain)
            with self.assertRaises(clsynth.QueryTimeout):
                await chain.inhabited("A", timeout=0.2)
            self.assertTrue(await chain.inhabited("A"))
            freeze(chain)
            with self.assertRaises(TimeoutError):
                await asyncio.wait_for(chain.inhabited("A"), 0.2)
            self.assertTrue(await chain.inhabited("A"))

    async def test_a_start_that_is_cancelled(self) -> None:
        async def start() -> None:
            async with AsyncSession(CHAIN, program=fake(self, "exec sleep 60"), timeout=0.5):
                self.fail()

        waiting = asyncio.create_task(start())
        await asyncio.sleep(0.1)
        waiting.cancel()
        with self.assertRaises(asyncio.CancelledError):
            await waiting


if __name__ == "__main__":
    unittest.main()
