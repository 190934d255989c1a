"""A season of a portal that commits one crown at a time: where the index is full, and how the portal goes on.

    python3 examples/season.py examples/steps       over the proved program
    python3 examples/season.py                      over the second program

300 crowns are handed in, taken in hand and marked, each step a commit of its own. A commit is a record, and there is room for 512: the
portal stops in its 171st crown. It reads every row, creates the index again from them, and goes on.
"""

import sys

from marking import FULL, HANDED_IN, IN_HAND, NAMES, PASSED, Refused, create_again, every_row, open_anew, run

CROWNS = 300
MARKER = 0


def step(index, crown, *change):
    """One change in a commit of its own. Where the index is full it is created again, and the change is asked for once more."""
    while True:
        open_anew(index, MARKER)
        index.ask(change[0], MARKER, *change[1:])
        try:
            return index.ask("commit", MARKER)
        except Refused as refused:
            if refused.number not in FULL:
                raise
            print(f"crown {crown}, {change[0]}: refused by {int(refused.number)}, {refused.sentence}")
            print(f"  created again from {create_again(index)[0]} rows")


def season(index):
    """Every crown is handed in, taken in hand and passed."""
    index.ask("column", len(NAMES))
    commits = 0
    for crown in range(1, CROWNS + 1):
        _, rows = step(index, crown, "insert", HANDED_IN)
        step(index, crown, "update", rows - 1, IN_HAND)
        step(index, crown, "update", rows - 1, PASSED)
        commits += 3
    column = every_row(index)
    print(f"{commits} commits: {column.count(PASSED)} of {len(column)} crowns passed")


if __name__ == "__main__":
    run(season, sys.argv[1:])
