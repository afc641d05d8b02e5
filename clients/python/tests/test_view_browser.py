"""Runs the tests of in_browser.py, by a Python that has selenium. They need Debian's chromium, chromium-driver and python3-selenium.

Where these aren't there, the tests are skipped and say so. With CI=true in the environment that is a failure.
"""

from __future__ import annotations

import os
import shutil
import subprocess
import sys
import unittest
from pathlib import Path

from support import PROGRAM, SOURCES, not_tested

HERE = Path(__file__).resolve().parent
PACKAGES = "chromium, chromium-driver and python3-selenium"


def python_with_selenium() -> str | None:
    """This Python, or that of the system."""
    for python in (sys.executable, "/usr/bin/python3"):
        if Path(python).exists() and subprocess.run([python, "-c", "import selenium"], capture_output=True).returncode == 0:
            return python
    return None


class InABrowser(unittest.TestCase):
    def test_pages(self) -> None:
        python = python_with_selenium()
        missing = [name for name in ("chromium", "chromedriver") if not shutil.which(name)] + ([] if python else ["selenium"])
        if missing or python is None:
            not_tested(self, f"the page in a browser: {', '.join(missing)} missing ({PACKAGES} of Debian have them)")
        environment = {**os.environ, "CLSYNTH": PROGRAM, "PYTHONPATH": f"{SOURCES}:{HERE}", "PYTHONDONTWRITEBYTECODE": "1"}
        ran = subprocess.run([python, "-m", "unittest", "in_browser"], cwd=HERE, env=environment, capture_output=True, text=True)
        self.assertEqual(ran.returncode, 0, ran.stderr)


if __name__ == "__main__":
    unittest.main()
