"""Runs what docs/COMMAND.md shows, and compares what is written with what stands there."""

from __future__ import annotations

import os
import re
import subprocess
import sys
import tempfile
import unittest
from pathlib import Path

from documents import TOP
from support import PROGRAM, SOURCES

BLOCK = re.compile(r"^```(\w+)\n(.*?)^```$", re.MULTILINE | re.DOTALL)


def install(folder: Path) -> dict[str, str]:
    """Puts the commands into a folder, and gives the environment in which they are found."""
    for name, call in (("cls", "main"), ("clsynth-check", "check_main")):
        command = folder / name
        command.write_text(f"#!{sys.executable}\nimport sys\nfrom clsynth.command import {call}\nsys.exit({call}())\n")
        command.chmod(0o755)
    return {**os.environ, "CLSYNTH": PROGRAM, "PYTHONPATH": str(SOURCES), "PATH": f"{folder}:{os.environ['PATH']}", "PYTHONIOENCODING": "utf-8"}


class Document(unittest.TestCase):
    def test_each_block(self) -> None:
        blocks = BLOCK.findall((TOP / "docs/COMMAND.md").read_text())
        self.assertGreater(len(blocks), 10)
        with tempfile.TemporaryDirectory() as commands, tempfile.TemporaryDirectory() as folder:
            environment = install(Path(commands))
            for (kind, text), (answer, wanted) in zip(blocks[::2], blocks[1::2], strict=True):
                with self.subTest(text):
                    self.assertEqual((kind, answer), ("sh", "output"))
                    ran = subprocess.run(["bash", "-c", text], cwd=folder, env=environment, stdout=subprocess.PIPE, stderr=subprocess.STDOUT)
                    self.assertEqual(ran.stdout.decode(), wanted)


if __name__ == "__main__":
    unittest.main()
