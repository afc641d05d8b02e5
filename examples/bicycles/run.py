"""Lists all bicycles that are sold, and tests that they are those that the shop's rules allow, each once."""

import sys
from itertools import product
from pathlib import Path

HERE = Path(__file__).parent
sys.path.insert(0, str(HERE.parents[1] / "clients/python/src"))

from clsynth import Repository, Session, Term


def allowed() -> set[Term]:
    """The bicycles by the rules themselves: a motor has a battery and a lamp, and one load is enough."""
    made = set()
    loads = ((), ("basket",), ("seat",), ("box",))
    for frame, battery, motor, load, lamp in product(("city", "cargo"), (False, True), (False, True), loads, (False, True)):
        if motor and not (battery and lamp):
            continue
        bicycle = Term(frame)
        for extra in (*("battery",) * battery, *("motor",) * motor, *load, *("lamp",) * lamp):
            bicycle = Term(extra, (bicycle,))
        made.add(bicycle)
    return made


def main() -> None:
    repository = Repository.parse((HERE / "repository.cls").read_text())
    with Session(repository) as session:
        listed = list(session.filtered("sold", "Bicycle", page_size=7))
    assert len(listed) == len(set(listed)) and set(listed) == allowed()
    prices = [term.size(repository.costs) for term in listed]
    assert prices == sorted(prices)
    for price, term in list(zip(prices, listed))[:5]:
        print(f"{price:4}  {term}")
    print(f"{len(listed)} bicycles, from {prices[0]} to {prices[-1]}")


main()
