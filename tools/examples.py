"""Writes the plan files of examples/.

    python3 tools/examples.py

The same files are written every time. examples/README.md says what each is.
"""

import sys

sys.dont_write_bytecode = True

from pathlib import Path

from cases import END, answer, both_ways, carrier, hall, rail

# The rail floor of most examples: a line 0 - 1 - 2 - 3, and a way round by
# place 4 between 1 and 2 that is shorter than the leg between them. Lengths
# are in decimetres; every leg is there both ways.
T = rail(5, both_ways((0, 1, 30), (1, 2, 90), (2, 3, 30), (1, 4, 20),
                      (4, 2, 20)))

#   0  1  2  3  4  5
#   6  #  #  9 10 11
#  12 13 14 15  # 17
#  18 19 20 21 22 23
HALL = hall(6, 4, blocked=[7, 8, 16], across=12, down=10)


def moving(*path):
    """A carrier that goes from the first place of its path to the last."""
    return carrier(path[0], path[-1], path)


TWO_CARRIERS = T + moving(0, 1, 2, 3) + moving(2, 4) + END

EXAMPLES = {
    "two-carriers.plan": TWO_CARRIERS,
    "head-on.plan": T + moving(0, 1, 2, 3) + moving(3, 2, 1, 0) + END,
    "through-a-goal.plan": T + moving(0, 1, 2) + moving(1, 2, 3) + END,
    "hall.plan": HALL + moving(0, 6, 12, 13, 14, 15)
                 + moving(5, 11, 17, 23, 22) + END,
    "damaged.plan": TWO_CARRIERS[:-1],
}

if __name__ == "__main__":
    folder = Path(__file__).resolve().parent.parent / "examples"
    folder.mkdir(exist_ok=True)
    for name, data in EXAMPLES.items():
        (folder / name).write_bytes(data)
        print(f"{name}: {len(data)} bytes, {answer(data)}")
