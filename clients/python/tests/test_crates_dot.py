"""Tests of tools/crates-dot, which draws the crates, and of the pictures that Graphviz makes for the documents."""

from __future__ import annotations

import html
import re
import subprocess
import sys
import tempfile
import unittest
from pathlib import Path

TOP = Path(__file__).resolve().parents[3]
# The program stands on c and d, which stand on b and a; of the kit, b stands on k. Nothing stands on t.
CRATES = "a:\nb: a k\nc: a b\nd: a b\nmain: a b c d\nt: a\n"
FLOORS = {"Low": ["a", "b"], "High": ["c", "d", "main"], "Tests": ["t"]}


def document(floors: dict[str, list[str]]) -> str:
    tables = (f"### {floor}\n\nWhat it is.\n\n| Crate | Gives |\n|---|---|\n" + rows(crates) for floor, crates in floors.items())
    return "# Crates\n\n## The crates\n\n" + "\n".join(tables) + "\n## Other\n\n### More\n\n| `word` | means |\n"


def rows(crates: list[str]) -> str:
    return "".join(f"| `{crate}` | something, as `{crate}_of` |\n" for crate in crates)


def draw(crates: str, floors: dict[str, list[str]]) -> subprocess.CompletedProcess[str]:
    with tempfile.TemporaryDirectory() as folder:
        for path, text in {"crates.txt": crates, "docs/ARCHITECTURE.md": document(floors), "crates/main/src/main.rt": ""}.items():
            Path(folder, path).parent.mkdir(parents=True, exist_ok=True)
            Path(folder, path).write_text(text)
        return subprocess.run([sys.executable, str(TOP / "tools/crates-dot"), folder], capture_output=True, text=True)


class Graphs(unittest.TestCase):
    def test_edges_that_others_imply_are_left_out(self) -> None:
        edges = re.findall(r"^    (\w+ -> \w+)$", draw(CRATES, FLOORS).stdout, re.MULTILINE)
        self.assertEqual(edges, ["b -> a", "c -> b", "d -> b", "main -> c", "main -> d"])

    def test_floors_of_what_the_program_stands_on(self) -> None:
        boxes = re.findall(r'subgraph \w+ \{ label="(\w+)"; (.*) \}', draw(CRATES, FLOORS).stdout)
        self.assertEqual(boxes, [("Low", "a; b"), ("High", "c; d; main")])


class Faults(unittest.TestCase):
    def test_floors_that_are_wrong(self) -> None:
        cases = {
            "c is on 0 floors": {**FLOORS, "High": ["d", "main"]},
            "t is on 2 floors": {**FLOORS, "High": ["c", "d", "main", "t"]},
            "crates.txt has no crate e": {**FLOORS, "Tests": ["t", "e"]},
            "b stands on a, which is on a later floor": {"Low": ["b"], "High": ["a", "c", "d", "main"], "Tests": ["t"]},
        }
        for wanted, floors in cases.items():
            ran = draw(CRATES, floors)
            self.assertEqual((ran.returncode, ran.stdout, ran.stderr), (1, "", f"crates-dot: {wanted}\n"))


class Pictures(unittest.TestCase):
    def test_each_shows_the_nodes_and_edges_of_its_graph(self) -> None:
        for name in ("grammar", "crates"):
            graph = (TOP / f"docs/{name}.dot").read_text()
            picture = (TOP / f"docs/{name}.svg").read_text()
            edges = [(above, below) for above, below in re.findall(r"^    (\w+) -> (\w+)", graph, re.MULTILINE)]
            shown = re.findall(r'class="(node|edge)">\n<title>(.*)</title>', picture)
            self.assertEqual(sorted(html.unescape(it) for kind, it in shown if kind == "edge"), sorted(f"{a}->{b}" for a, b in edges))
            self.assertEqual({it for kind, it in shown if kind == "node"}, {node for edge in edges for node in edge})


if __name__ == "__main__":
    unittest.main()
