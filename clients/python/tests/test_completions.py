"""Tests of completion in shells: that of bash is called as bash does, that of zsh in a terminal, if zsh is there."""

from __future__ import annotations

import shutil
import subprocess
import unittest

from documents import TOP
from support import not_tested

BASH = """
source {file}
cd {folder}
COMP_WORDS=({words})
COMP_CWORD=$((${{#COMP_WORDS[@]}} - 1))
{call}
printf '%s\\n' "${{COMPREPLY[@]}}"
"""
ZSH = r"""
zmodload zsh/zpty
zpty shell zsh -f -i
zpty -w shell 'fpath=({folder} $fpath); autoload -Uz compinit; compinit -u -D; cd {examples}'
zpty -w shell 'cls() { print -r -- "GO""T:$*:" }; clsynth() { cls "$@" }; print REA""DY'
zpty -r shell line '*READY*'
zpty -n -w shell $'{typed}\n'
zpty -r shell line '*GOT:*:*'
print -r -- $line
zpty -d shell
"""


class Bash(unittest.TestCase):
    def offered(self, call: str, *words: str) -> list[str]:
        quoted = " ".join(f"'{word}'" for word in words)
        script = BASH.format(file=TOP / "completions/cls.bash", folder=TOP / "examples", words=quoted, call=call)
        told = subprocess.run(["bash", "--norc", "-c", script], capture_output=True, text=True)
        self.assertEqual(told.stderr, "")
        return sorted(told.stdout.split())

    def test_commands(self) -> None:
        self.assertEqual(self.offered("_cls", "cls", ""), sorted("run explain check list why missing view --help --version".split()))
        self.assertEqual(self.offered("_cls", "cls", "ex"), ["explain"])

    def test_options(self) -> None:
        self.assertEqual(self.offered("_cls", "cls", "run", "--"), sorted("--help --json --strict --workers --max-goals --max-rules --pool".split()))
        self.assertEqual(self.offered("_cls", "cls", "list", "first.cls", "--ma"), ["--max", "--max-goals", "--max-rules"])
        self.assertEqual(self.offered("_cls", "cls", "list", "first.cls", "A", "--fi"), ["--filter"])
        self.assertEqual(self.offered("_cls", "cls", "list", "first.cls", "A", "--filter", ""), [])
        options = "--help -o --workers --max-goals --max-rules --pool".split()
        self.assertEqual(self.offered("_cls", "cls", "view", "first.cls", "A", "-"), sorted(options))
        self.assertEqual(self.offered("_cls", "cls", "run", "--pool", ""), [])
        self.assertEqual(self.offered("_clsynth", "clsynth", ""), sorted("--workers --max-goals --max-rules --pool generate".split()))
        self.assertEqual(self.offered("_clsynth", "clsynth", "--max"), ["--max-goals", "--max-rules"])
        self.assertEqual(self.offered("_cls_check", "clsynth-check", "--v"), ["--version"])

    def test_files(self) -> None:
        folders = [f"{path.name}/" for path in (TOP / "examples").iterdir() if path.is_dir()]
        self.assertEqual(self.offered("_cls", "cls", "run", ""), sorted(["first.cls", "grammar.cls", *folders]))
        self.assertEqual(self.offered("_cls", "cls", "why", "fi"), ["first.cls"])
        self.assertEqual(self.offered("_cls", "cls", "why", "first.cls", "fi"), [])
        self.assertEqual(self.offered("_cls_check", "clsynth-check", "maze/rep"), ["maze/repository.cls"])


class Zsh(unittest.TestCase):
    def test_a_line(self) -> None:
        if not shutil.which("zsh"):
            not_tested(self, "completion in zsh: zsh isn't on the PATH")
        folder, examples = TOP / "completions", TOP / "examples"
        for typed, wanted in {r"cls ru\t--js\tfir\t": "GOT:run --json first.cls:", r"clsynth --po\t5 gen\t": "GOT:--pool 5 generate:"}.items():
            script = ZSH.replace("{folder}", str(folder)).replace("{examples}", str(examples)).replace("{typed}", typed)
            told = subprocess.run(["zsh", "-f", "-c", script], capture_output=True, text=True, timeout=60, stdin=subprocess.DEVNULL)
            self.assertIn(wanted, told.stdout)


if __name__ == "__main__":
    unittest.main()
