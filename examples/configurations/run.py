"""Prints the ten cheapest products with their prices, and tests that the prices ascend."""

import itertools
import sys
from pathlib import Path

HERE = Path(__file__).parent
sys.path.insert(0, str(HERE.parents[1] / "clients/python/src"))

from clsynth import Repository, Session


def main() -> None:
    repository = Repository.parse((HERE / "repository.cls").read_text())
    last = 0
    with Session(repository) as session:
        for term, text in itertools.islice(session.texts("Station", page_size=4), 10):
            price = term.size(repository.costs)
            assert price >= last
            print(f"{price:4}  {text}")
            last = price


main()
