"""Tests of the package as it is installed: its wheel, its names, and what it needs."""

from __future__ import annotations

import os
import shutil
import subprocess
import sys
import tempfile
import unittest
import zipfile
from email import message_from_string
from pathlib import Path

from support import SOURCES, not_tested

import clsynth

# What could be imported when the client was one file.
FIRST_NAMES = """
ClsynthError RepositoryRefused Status ProcessFault SessionClosed InputFull QueryError PlacedError LineTooLong NotUtf8 TooDeep SyntaxFault
ReservedName TooManyNodes VariableInQuery NumberOutOfRange UnknownComponent UnknownInTerm BadCertificate NoQed TypeTooLarge ClosureTooLarge
WideGoal TooManyTerms ERRORS TermText Page Rule Goal Grammar parse_grammar Row Block Member Inhabited Empty Certificate parse_certificate
Verdict Step Sizes Event Session MAX_INPUT_BYTES MAX_LINE_BYTES MAX_SIZE
""".split()


class Names(unittest.TestCase):
    def test_they_can_be_imported(self) -> None:
        for name in (*FIRST_NAMES, *clsynth.__all__):
            self.assertTrue(hasattr(clsynth, name), name)
        self.assertLessEqual(set(FIRST_NAMES), set(clsynth.__all__))

    def test_importing_it_needs_the_standard_library_alone(self) -> None:
        asked = "import sys; sys.path.insert(0, sys.argv[1]); import clsynth; print(*{name.partition('.')[0] for name in sys.modules})"
        ran = subprocess.run([sys.executable, "-S", "-I", "-c", asked, str(SOURCES)], capture_output=True, text=True, check=True)
        self.assertLessEqual(set(ran.stdout.split()), sys.stdlib_module_names | {"clsynth", "__main__"})


class Wheels(unittest.TestCase):
    def test_a_wheel_has_all_files(self) -> None:
        python = python_with_setuptools() or not_tested(self, "the wheel: setuptools or wheel isn't there (python3-setuptools, python3-wheel)")
        with tempfile.TemporaryDirectory() as folder:
            copy = Path(folder, "package")
            shutil.copytree(SOURCES.parent, copy, ignore=shutil.ignore_patterns("tests", "build", "*.egg-info", "__pycache__", ".*"))
            build = "import sys; from setuptools import build_meta; print(build_meta.build_wheel(sys.argv[1]))"
            ran = subprocess.run([python, "-c", build, folder], cwd=copy, capture_output=True, text=True)
            self.assertEqual(ran.returncode, 0, ran.stderr)
            with zipfile.ZipFile(Path(folder, ran.stdout.splitlines()[-1])) as wheel:
                files = set(wheel.namelist())
                about = f"clsynth-{clsynth.__version__}.dist-info"
                metadata = message_from_string(wheel.read(f"{about}/METADATA").decode())
                self.assertEqual(wheel.read(f"{about}/LICENSE"), (SOURCES.parent / "LICENSE").read_bytes())
        sources = {str(path.relative_to(SOURCES)) for path in SOURCES.rglob("*.py")}
        self.assertLessEqual(sources | {"clsynth/py.typed"}, files)
        self.assertEqual((metadata["Name"], metadata["Version"], metadata["License"]), ("clsynth", clsynth.__version__, "MIT"))
        self.assertTrue(all("extra ==" in it for it in metadata.get_all("Requires-Dist") or ()))


def python_with_setuptools() -> str | None:
    """A Python that can build a wheel: this one, or that of the system."""
    for python in (sys.executable, "/usr/bin/python3"):
        if os.access(python, os.X_OK) and subprocess.run([python, "-c", "import setuptools, wheel"], capture_output=True).returncode == 0:
            return python
    return None


if __name__ == "__main__":
    unittest.main()
