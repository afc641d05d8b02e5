"""Runs the programs that clsynth writes, and tests that each result is what its type says."""

import sys
from pathlib import Path

HERE = Path(__file__).parent
sys.path.insert(0, str(HERE.parents[1] / "clients/python/src"))

from clsynth import Session

DATA = {"numbers": [3, 14, 15, 9, 2, 6, 5, 3, 5], "words": ["loop", "bird", "sun", "cloud", "bird"]}
TESTS = {
    "Asc": lambda it: it == sorted(it),
    "Desc": lambda it: it == sorted(it, reverse=True),
    "Unique": lambda it: len(it) == len(set(it)),
    "Short": lambda it: len(it) <= 3,
}
GOALS = ["List(Int) & Short & Unique", "List(Int) & Asc", "List(Str) & Asc & Unique", "List(Str) & Desc & Short"]


def main() -> None:
    with Session((HERE / "repository.cls").read_text()) as session:
        for goal in GOALS:
            print(f"{goal}:")
            for _, text in session.text_page(goal, 3, max_size=6).entries:
                result = eval(text or "", dict(DATA))
                assert all(test(result) for name, test in TESTS.items() if name in goal), text
                print(f"  {text} = {result}")


main()
