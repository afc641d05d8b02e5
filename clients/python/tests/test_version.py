"""Tests of the version. It stands in clsynth/_version.py, and whatever else shows it says the same."""

from __future__ import annotations

import json
import re
import tomllib
import unittest

from documents import TOP
from support import SOURCES

import clsynth

VERSION = clsynth.__version__
DOCUMENTS = ["README.md", "clients/python/README.md", *sorted(f"docs/{path.name}" for path in (TOP / "docs").glob("*.md"))]


class Versions(unittest.TestCase):
    def test_the_package(self) -> None:
        project = tomllib.loads((SOURCES.parent / "pyproject.toml").read_text())
        self.assertNotIn("version", project["project"])
        self.assertEqual(project["tool"]["setuptools"]["dynamic"]["version"], {"attr": "clsynth._version.__version__"})

    def test_the_manual_page(self) -> None:
        self.assertIn(f'.TH CLSYNTH 1 "" "clsynth {VERSION}" "User commands"\n', (TOP / "docs/clsynth.1").read_text())

    def test_the_extension_for_editors(self) -> None:
        self.assertEqual(json.loads((TOP / "editors/vscode/package.json").read_text())["version"], VERSION)

    def test_what_is_new(self) -> None:
        heads = re.findall(r"^## (.*)$", (TOP / "CHANGELOG.md").read_text(), re.MULTILINE)
        self.assertEqual(heads[0], VERSION)

    def test_the_documents(self) -> None:
        shown = {name: re.findall(r"clsynth[-_ ](\d+\.\d+\.\d+)", (TOP / name).read_text()) for name in DOCUMENTS}
        self.assertTrue(shown["README.md"])
        self.assertTrue(shown["docs/INSTALL.md"])
        for name, versions in shown.items():
            self.assertLessEqual(set(versions), {VERSION}, name)

    def test_the_licenses(self) -> None:
        package = json.loads((TOP / "editors/vscode/package.json").read_text())
        project = tomllib.loads((SOURCES.parent / "pyproject.toml").read_text())["project"]
        first = (TOP / "LICENSE").read_text().splitlines()[0]
        self.assertEqual((package["license"], project["license"], first), ("MIT", {"text": "MIT"}, "MIT License"))
        for name in ("LICENSE", "NOTICES"):
            self.assertEqual((SOURCES.parent / name).read_text(), (TOP / name).read_text())


if __name__ == "__main__":
    unittest.main()
