"""Makes the moves of fifty answers on a map with its walls, and tests that each of them delivers the parcel."""

import itertools
import sys
from pathlib import Path

HERE = Path(__file__).parent
sys.path.insert(0, str(HERE.parents[1] / "clients/python/src"))

from clsynth import Session

STEPS = {"right": (1, 0), "left": (-1, 0), "down": (0, 1), "up": (0, -1)}
# The walls lie between these places: column and row, counted from 0.
WALLS = [{(1, 0), (2, 0)}, {(0, 0), (0, 1)}]


def delivers(moves: list[str]) -> bool:
    place, carries = (0, 0), False
    for move in moves:
        if move == "take":
            assert place == (2, 0) and not carries
            carries = True
        elif move == "drop":
            assert place == (0, 1) and carries
            carries = False
        else:
            ahead = (place[0] + STEPS[move][0], place[1] + STEPS[move][1])
            assert ahead[0] in range(3) and ahead[1] in range(2) and {place, ahead} not in WALLS
            place = ahead
    return moves[-1] == "drop"


def main() -> None:
    with Session((HERE / "repository.cls").read_text()) as session:
        answers = [(text or "").split() for _, text in itertools.islice(session.texts("Delivered", page_size=8), 50)]
    assert all(moves[0] == "start" and delivers(moves[1:]) for moves in answers)
    print(f"{len(answers)} answers deliver the parcel; they have {len(answers[0]) - 1} to {len(answers[-1]) - 1} moves")


main()
