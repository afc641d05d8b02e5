"""Tests of the commands `cls` and `clsynth-check`."""

from __future__ import annotations

import json
import os
import pty
import signal
import subprocess
import sys
import tempfile
import tomllib
import unittest
from pathlib import Path
from typing import Any

from documents import TOP
from support import ONCE, PROGRAM, SOURCES, fake, take_interrupts

import clsynth

FIRST = str(TOP / "examples/first.cls")
CHAIN = "comp x : A\ncomp f : A -> A\n"


class Command(unittest.TestCase):
    """Runs commands in a folder of their own."""

    def setUp(self) -> None:
        folder = tempfile.TemporaryDirectory()
        self.addCleanup(folder.cleanup)
        self.folder = Path(folder.name)
        self.environment = {**os.environ, "CLSYNTH": PROGRAM, "PYTHONPATH": str(SOURCES), "PYTHONIOENCODING": "utf-8"}

    def file(self, name: str, text: str) -> str:
        (self.folder / name).write_bytes(text.encode())
        return name

    def cls(self, *words: str, given: str = "", **environment: str) -> subprocess.CompletedProcess[str]:
        return subprocess.run(
            [sys.executable, "-m", "clsynth", *words], input=given, capture_output=True, text=True, cwd=self.folder,
            env={**self.environment, **environment},
        )

    def objects(self, *words: str) -> list[dict[str, Any]]:
        return [json.loads(line) for line in self.cls("run", "--json", *words).stdout.splitlines()]


class Words(Command):
    def test_help_and_version(self) -> None:
        self.assertEqual(self.cls("--version").stdout, f"cls {clsynth.__version__}\n")
        told = self.cls("--help").stdout
        for command in ("run", "explain", "check", "list", "why", "missing", "view"):
            self.assertIn(f"\n    {command} ", told)
            self.assertTrue(self.cls(command, "--help").stdout.startswith(f"usage: cls {command} "))

    def test_names_of_the_commands(self) -> None:
        scripts = tomllib.loads((SOURCES.parent / "pyproject.toml").read_text())["project"]["scripts"]
        # On the PATH `clsynth` is the program.
        self.assertEqual(scripts, {"cls": "clsynth.command:main", "clsynth-check": "clsynth.command:check_main"})

    def test_words_of_no_form(self) -> None:
        cases: tuple[tuple[str, ...], ...] = (
            (), ("walk",), ("run",), ("run", "--pool", "0", FIRST), ("run", "--workers", "65", FIRST), ("list", FIRST),
            ("list", FIRST, "A", "-n", "x"),
        )
        for words in cases:
            with self.subTest(words):
                ran = self.cls(*words)
                self.assertEqual((ran.returncode, ran.stdout), (1, ""))
                self.assertTrue(ran.stderr.startswith("usage: cls"))
        self.assertIn("65 is no number from 1 to 64", self.cls("run", "--workers", "65", FIRST).stderr)

    def test_no_program(self) -> None:
        ran = self.cls("run", FIRST, CLSYNTH="/nowhere/clsynth")
        self.assertEqual((ran.returncode, ran.stdout), (1, ""))
        self.assertIn("CLSYNTH", ran.stderr)

    def test_words_that_the_program_does_not_take(self) -> None:
        for words in (["run"], ["run", "--json"], ["explain"]):
            ran = self.cls(*words, "--pool", "unheard", FIRST)
            self.assertEqual((ran.returncode, ran.stdout), (1, ""))
            self.assertIn("It doesn't take the words `--pool unheard`", ran.stderr)
        self.assertEqual(self.cls("list", "--pool", "unheard", FIRST, "Desc").returncode, 1)
        newer = fake(self, f'[ "$*" = "--pool unbounded" ] || exit 1; exec {PROGRAM}')
        self.assertEqual(self.cls("list", "--pool", "unbounded", FIRST, "Desc", "-n", "1", CLSYNTH=newer).stdout, "rev(sort(input))\n")

    def test_a_file_that_is_no_program(self) -> None:
        program = Path(fake(self, ""))
        program.write_bytes(b"\x7fELF")
        for words in (["run", FIRST], ["list", FIRST, "Desc"]):
            ran = self.cls(*words, CLSYNTH=str(program))
            self.assertEqual((ran.returncode, ran.stdout), (1, ""))
            self.assertIn("Exec format error", ran.stderr)

    def test_no_file(self) -> None:
        ran = self.cls("run", "nothing.cls")
        self.assertEqual((ran.returncode, ran.stderr), (3, "cls: nothing.cls: No such file or directory\n"))


class Run(Command):
    def test_the_examples(self) -> None:
        for repository in sorted(TOP.glob("examples/*/repository.cls")):
            ran = self.cls("run", str(repository), str(repository.with_name("queries.cls")))
            self.assertEqual((ran.stdout, ran.stderr, ran.returncode), (repository.with_name("output.txt").read_text(), "", 0))

    def test_the_end_is_added_between_files(self) -> None:
        chain, queries = self.file("chain.cls", CHAIN.rstrip()), self.file("queries.cls", "# asked\ninhabit A\n")
        self.assertEqual(self.cls("run", chain, queries).stdout, "inhabited\n")
        compared = self.file("compared.cls", "sub A <= A\ninhabit B")
        self.assertEqual(self.cls("run", chain, compared, queries).stdout, "yes\nuninhabited\ninhabited\n")
        more = self.file("more.cls", "sub A B\ncomp y : C\nend\n")
        self.assertEqual(self.cls("run", chain, more, queries).stdout, "inhabited\n")
        self.assertEqual(self.cls("run", chain, more, "-", given="inhabit C\n").stdout, "inhabited\n")

    def test_lines_are_those_of_the_files(self) -> None:
        chain, queries = self.file("chain.cls", CHAIN), self.file("queries.cls", "# asked\ninhabit A &\n")
        self.assertTrue(self.cls("explain", chain, queries).stdout.startswith("queries.cls:2:12: error: syntax: "))
        self.assertEqual([(it["file"], it["line"]) for it in self.objects(chain, queries)], [("queries.cls", 2)])

    def test_strict(self) -> None:
        chain = self.file("chain.cls", CHAIN + "end\nhello\ninhabit A\n")
        self.assertEqual([self.cls("run", *words, chain).returncode for words in ((), ("--strict",))], [0, 7])
        self.assertEqual(self.cls("run", "--strict", chain).stdout, "error syntax 0\ninhabited\n")
        well = self.file("well.cls", CHAIN + "end\ninhabit A\nverify A\nempty\nmember A\nqed\n")
        self.assertEqual(self.cls("run", "--strict", well).returncode, 0)

    def test_a_refusal(self) -> None:
        ran = self.cls("run", self.file("bad.cls", "comp x : A\ncost x 0\nend\ninhabit A\n"))
        self.assertEqual((ran.returncode, ran.stdout), (2, "refused 2 cost x\n"))
        self.assertTrue(ran.stderr.startswith("bad.cls:2:8: error: cost: the cost of `x` isn't from 1 to 255\n    cost x 0\n"))
        self.assertEqual(self.cls("run", "--strict", "--json", "bad.cls").returncode, 2)

    def test_options_of_the_program(self) -> None:
        two = self.file("two.cls", "comp x : A\ncomp y : B\nend\nlist omega max 2 take 10\n")
        self.assertEqual(self.cls("run", "--pool", "5", two).stdout, "error too-many-terms\n")
        self.assertEqual(self.cls("run", "--max-goals", "1", self.file("goals.cls", "comp f : B -> A\nend\ninhabit A\n")).stdout, "error too-large\n")

    def test_statuses_of_the_program(self) -> None:
        long = self.file("long.cls", "comp x : A\nend\n" + "inhabit A\n" * 104_858)
        ran = self.cls("run", long)
        self.assertEqual(ran.returncode, 6)
        self.assertIn("1,048,576", ran.stderr)
        killed = fake(self, "cat > /dev/null\nkill -9 $$\n")
        self.assertEqual(self.cls("run", FIRST, CLSYNTH=killed).returncode, 128 + signal.SIGKILL)

    def test_nobody_takes_the_output(self) -> None:
        given = self.file("long.cls", CHAIN + "end\n" + "list A max 64 take 64\n" * 2_000)
        words = [sys.executable, "-m", "clsynth", "run", given]
        with subprocess.Popen(words, cwd=self.folder, env=self.environment, stdout=subprocess.PIPE, stderr=subprocess.PIPE) as process:
            assert process.stdout and process.stderr
            process.stdout.read(10)
            process.stdout.close()
            self.assertEqual((process.wait(), process.stderr.read()), (4, b""))

    def test_replies_come_while_others_are_worked_out(self) -> None:
        program = fake(self, "echo yes\nsleep 60\n")
        words = [sys.executable, "-m", "clsynth", "run", self.file("slow.cls", "end\nsub A <= A\ninhabit A\n")]
        started = subprocess.Popen(
            words, cwd=self.folder, env={**self.environment, "CLSYNTH": program}, stdout=subprocess.PIPE, preexec_fn=take_interrupts
        )
        with started as process:
            assert process.stdout
            self.assertEqual(process.stdout.readline(), b"yes\n")
            process.send_signal(signal.SIGINT)
            self.assertEqual(process.wait(20), 130)


class Json(Command):
    def test_answers(self) -> None:
        queries = {
            "sub A <= B": False, "typed f(x) : A": True, "inhabit A": True, "inhabit B": False, "paths f": ["A -> A"],
            "batch A | B": [True, False],
            "list A max 2 take 1": {"terms": ["x"], "more": True},
            "texts A max 2 take 5": {"terms": [{"term": "x", "text": "x"}, {"term": "f(x)", "text": "{x\n}"}], "more": False},
            "grammar A": [{"type": "A", "rank": 1, "rules": [{"component": "x", "arguments": []}, {"component": "f", "arguments": [0]}]}],
            "grammar B": [{"type": "B", "rank": None, "rules": []}],
            "certify A": ["inhabited", "row A by x 0 : 0", "qed"],
            "finite B": {"greatest": 0, "over": False, "walk": []},
            "finite A": {"greatest": None, "over": False, "walk": [{"goal": 0, "rule": 1, "argument": 0}]},
        }
        given = self.file("t.cls", CHAIN + "text f = {{{1}\\n}}\nend\n" + "\n".join(queries) + "\naudit A\n")
        found = self.objects(given)
        self.assertEqual({it["query"]: it["answer"] for it in found[:-1]}, queries)
        self.assertEqual([(it["event"], it["row"]) for it in found[-1]["answer"]], [("claim", 0), ("file", 0)])

    def test_long_texts(self) -> None:
        given = self.file("t.cls", f"{CHAIN}text x = {'y' * 40_000}\ntext f = {{1}}{{1}}\nend\ntexts A max 2 take 5\ninhabit A\n")
        page, last = self.objects(given)
        self.assertEqual(page["answer"]["terms"][1], {"term": "f(x)", "text": None})
        self.assertTrue(last["answer"])

    def test_certificates(self) -> None:
        given = self.file("t.cls", "comp f : A -> A\nend\nverify A\nempty\nmember A\nqed\nverify A\nempty\nmember A\nblock f 1\nlayer\nset 0\nqed\n")
        refused, accepted = self.objects(given)
        self.assertEqual((refused["query"], refused["certificate"]), ("verify A", ["empty", "member A", "qed"]))
        self.assertEqual(refused["answer"], {"accepted": False, "row": 1, "reason": "unblocked"})
        self.assertEqual(accepted["answer"], {"accepted": True})

    def test_errors(self) -> None:
        given = self.file("t.cls", CHAIN + "end\npaths ff\n")
        (found,) = self.objects(given)
        self.assertEqual((found["error"]["word"], found["error"]["detail"], found["error"]["byte"]), ("unknown", "ff", 6))
        self.assertIn("nothing that may stand here has the name `ff`", found["error"]["explanation"])
        self.assertNotIn("answer", found)
        (refused,) = self.objects(self.file("bad.cls", "comp x : A\ncost x 0\n"))
        self.assertEqual((refused["line"], refused["refused"]["word"], refused["refused"]["detail"]), (2, "cost", "x"))


class Explain(Command):
    def test_statuses(self) -> None:
        well, wrong, refused = self.file("well.cls", "end\n"), self.file("wrong.cls", "end\nhello\n"), self.file("refused.cls", "hello\n")
        self.assertEqual([self.cls("explain", name).returncode for name in (well, wrong, refused)], [0, 7, 2])
        self.assertEqual(self.cls("explain", well).stdout, "")

    def test_a_certificate_that_is_refused(self) -> None:
        ran = self.cls("explain", self.file("t.cls", CHAIN + "end\nverify B\nempty\nmember A\nqed\n"))
        self.assertEqual(ran.returncode, 0)
        self.assertTrue(ran.stdout.startswith("t.cls:6:1: warning: unblocked: "))
        self.assertIn("\n    member A\n", ran.stdout)


class Check(Command):
    def test_both_commands(self) -> None:
        given = self.file("t.cls", "comp x : Int\ncomp f : Imt -> B\n")
        wanted = "t.cls:2:10: warning: `Imt` is wanted, and no component makes it\n    comp f : Imt -> B\n             ^\n    Did you mean `Int`?\n"
        ran = self.cls("check", given)
        self.assertEqual((ran.stdout, ran.returncode), (wanted, 7))
        call = "import sys; from clsynth.command import check_main; sys.exit(check_main())"
        other = subprocess.run([sys.executable, "-c", call, given], cwd=self.folder, env=self.environment, capture_output=True, text=True)
        self.assertEqual((other.stdout, other.returncode), (wanted, 7))

    def test_files_behind_one_another(self) -> None:
        lines, queries = self.file("lines.cls", "comp x : Int\n"), self.file("queries.cls", "inhabit Int\ninhabit Str\n")
        self.assertEqual(self.cls("check", lines, queries).stdout.split(" ")[0], "queries.cls:2:9:")

    def test_hints_alone(self) -> None:
        ran = self.cls("check", self.file("t.cls", "comp x : A & B\nend\ninhabit A\n"))
        self.assertEqual((ran.stdout.splitlines()[0], ran.returncode), ("t.cls:1:14: hint: `B` is made, and nothing wants it", 0))


class Ask(Command):
    def test_list(self) -> None:
        self.assertEqual(self.cls("list", FIRST, "List(Int) & Desc", "-n", "2").stdout, "rev(sort(input))\nrev(sort(sort(input)))\n")
        words = ("--after", "rev(sort(input))", "--max", "4", "--text")
        self.assertEqual(self.cls("list", FIRST, "List(Int) & Desc", *words).stdout, "reversed(sorted(sorted(xs)))\nreversed(sorted(reversed(xs)))\n")

    def test_more_terms_than_a_page_has(self) -> None:
        tree = self.file("tree.cls", "comp x : A\ncomp f : A -> A -> A\n")
        once = self.file("once.cls", ONCE)
        words = ("--filter", "once", "--max", "3")
        self.assertEqual(self.cls("list", once, "A", *words).stdout, "x\nf(x)\ng(x)\nf(g(x))\ng(f(x))\ng(g(x))\n")
        self.assertEqual(self.cls("list", once, "A", "--text", *words).returncode, 1)
        listed = self.cls("list", tree, "A", "-n", "1200").stdout.splitlines()
        with clsynth.Session((self.folder / tree).read_text(), program=PROGRAM) as session:
            self.assertEqual(listed, [str(term) for term in session.page("A", 1_200).entries])
        self.assertEqual(len(set(listed)), 1_200)
        self.assertEqual(len(self.cls("list", tree, "A", "--max", "5", "-n", "100").stdout.splitlines()), 4)

    def test_a_bar_on_a_terminal_alone(self) -> None:
        tree = self.file("tree.cls", "comp x : A\ncomp f : A -> A -> A\n")
        words = [sys.executable, "-m", "clsynth", "list", tree, "A", "-n", "600"]
        self.assertEqual(subprocess.run(words, cwd=self.folder, env=self.environment, capture_output=True).stderr, b"")
        ours, theirs = pty.openpty()
        with subprocess.Popen(words, cwd=self.folder, env=self.environment, stdout=subprocess.DEVNULL, stderr=theirs) as process:
            self.assertEqual(process.wait(), 0)
        os.close(theirs)
        told = os.read(ours, 10_000).decode()
        os.close(ours)
        self.assertIn("500 of 600", told)
        self.assertTrue(told.endswith("\r\x1b[K"))

    def test_long_texts(self) -> None:
        given = self.file("t.cls", f"{CHAIN}text x = {'y' * 40_000}\ntext f = {{1}}{{1}}\n")
        ran = self.cls("list", given, "A", "--max", "2", "--text")
        self.assertEqual((ran.returncode, ran.stdout, ran.stderr), (0, "y" * 40_000 + "\n", "cls: the text of f(x) has more than 65,536 bytes\n"))

    def test_why_and_missing(self) -> None:
        self.assertEqual(self.cls("why", FIRST, "rev(input)", "Desc").stdout.splitlines()[:2], ["no", "rev(input) lacks Desc. It has List(Int)."])
        self.assertEqual(self.cls("missing", FIRST, "Strng").stdout, "no term has Strng\nStrng is wanted, and no component makes it\n")

    def test_errors(self) -> None:
        ran = self.cls("why", FIRST, "rev(inptu)", "Desc")
        self.assertEqual((ran.returncode, ran.stdout), (7, ""))
        self.assertTrue(ran.stderr.startswith("query:1:11: error: token: "))
        self.assertIn("Did you mean `input`?", ran.stderr)
        self.assertEqual(self.cls("list", FIRST, "List(Int) &").returncode, 7)
        refused = self.cls("list", "-", "A", given="comp x : A\ncost x 0\n")
        self.assertEqual((refused.returncode, refused.stderr.splitlines()[1]), (2, "    cost x 0"))


if __name__ == "__main__":
    unittest.main()
