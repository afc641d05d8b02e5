"""Tests of the manual page of the program."""

from __future__ import annotations

import os
import re
import subprocess
import tempfile
import unittest
from pathlib import Path

from documents import TOP
from support import PROGRAM

MANUAL = (TOP / "docs/clsynth.1").read_text()


class Manual(unittest.TestCase):
    def test_the_example(self) -> None:
        given, wanted = re.findall(r"^\.nf\n(.*?)^\.fi$", MANUAL.split(".SH EXAMPLES")[1], re.MULTILINE | re.DOTALL)
        script = given.replace("\\(aq", "'")
        # With quotes around the word the shell reads no `$` in the lines.
        self.assertIn("<<'EOF'\n", script)
        self.assertEqual(MANUAL.count("<<"), 1)
        with tempfile.TemporaryDirectory() as folder:
            Path(folder, "clsynth").symlink_to(Path(PROGRAM).resolve())
            environment = {**os.environ, "PATH": f"{folder}:{os.environ['PATH']}"}
            ran = subprocess.run(["sh", "-c", script], stdout=subprocess.PIPE, text=True, env=environment)
        self.assertEqual(ran.stdout, wanted)


if __name__ == "__main__":
    unittest.main()
