"""Spans by hand: the tables, the list that is lent, the call, and what the answer and every cell of the list are to be.

On these tables, which no run makes, row 1 is held by values 0 and 1 and row 3 by 1 and 2; value 3 holds none. Record 1 takes
row 0 from value 0 and gives it to value 2, record 2 gives rows 2 and 3 to value 3. Session 0 starts before the records, 1
after both, 2 after the first; session 3 is free.
"""

import cells
from rules import Index
from tables import ABSENT, COMMIT, NO_LINK, TIDY, Change, Insert, Listed, Record, Session, Slot


def shared(rows=4):
    """The tables; of more than four rows, value 0 holds the others."""
    index = Index()
    index.C, index.first_rows, index.rows, index.stamp, index.heads = 4, rows, rows, 2, [0, 1, 2, 3]
    vectors = ({0, 1, *range(4, rows)}, {1, 2, 3}, {3}, set())
    index.slots = [Slot(value, 0, NO_LINK, frozenset(vector)) for value, vector in enumerate(vectors)]
    index.log = [Record(COMMIT, rows, [Change(0, frozenset({0, 2}))]), Record(TIDY, rows, [Change(3, frozenset({3})), Change(2, frozenset({3}))])]
    for n, start in enumerate((0, 2, 1)):
        index.sessions[n] = Session(start, rows)
    # a session's own list does not show
    index.sessions[1].list = [Listed(1, 3), Listed(2, ABSENT), Insert(3)]
    return cells.lay(index)


FAR = 2 ** 64 - 1
FULL = list(range(2048))

# the tables, the list lent, session, first and last; the answer and the list afterwards, written by hand
SPANS = (
    (shared, [9] * 6, (0, 0, 1), ("count", 4), [0, 1, 2, 3, 9, 9]),
    (shared, [9] * 4, (0, 0, 1), ("count", 4), [0, 1, 2, 3]),
    (shared, [9] * 3, (0, 0, 1), ("no", 21), [9] * 3),
    (shared, [], (0, 0, 1), ("no", 21), []),
    (shared, [9] * 3, (0, 0, 0), ("count", 2), [0, 1, 9]),
    (shared, [9] * 3, (0, 1, 1), ("count", 3), [1, 2, 3]),
    (shared, [9] * 3, (0, 1, 2), ("count", 3), [1, 2, 3]),
    (shared, [9] * 2, (0, 1, 2), ("no", 21), [9] * 2),
    (shared, [9] * 2, (0, 2, 2), ("count", 1), [3, 9]),
    (shared, [9] * 2, (0, 3, 3), ("count", 0), [9, 9]),
    (shared, [], (0, 3, 3), ("count", 0), []),
    (shared, [9] * 5, (2, 0, 0), ("count", 1), [1, 9, 9, 9, 9]),
    (shared, [9] * 5, (2, 2, 2), ("count", 2), [0, 3, 9, 9, 9]),
    (shared, [9] * 5, (2, 0, 3), ("count", 4), [0, 1, 2, 3, 9]),
    (shared, [9] * 5, (1, 2, 3), ("count", 3), [0, 2, 3, 9, 9]),
    (shared, [9] * 5, (1, 3, 3), ("count", 2), [2, 3, 9, 9, 9]),
    (shared, [9] * 5, (1, 0, 2), ("count", 4), [0, 1, 2, 3, 9]),
    # the refusals in their order: 4, 5, 6 by either end, 20, 21
    (shared, [], (16, 4, 0), ("no", 4), []),
    (shared, [], (FAR, FAR, FAR), ("no", 4), []),
    (shared, [], (3, 4, 0), ("no", 5), []),
    (shared, [], (0, 4, 0), ("no", 6), []),
    (shared, [], (0, 0, 4), ("no", 6), []),
    (shared, [], (0, 4, 4), ("no", 6), []),
    (shared, [9] * 9, (0, 0, FAR), ("no", 6), [9] * 9),
    (shared, [9] * 9, (0, FAR, 0), ("no", 6), [9] * 9),
    (shared, [9] * 9, (0, 2 ** 32, 1), ("no", 6), [9] * 9),
    (shared, [9] * 9, (0, 0, 2 ** 32 + 1), ("no", 6), [9] * 9),
    (shared, [9] * 9, (0, 0, 2 ** 8 + 1), ("no", 6), [9] * 9),
    (shared, [9] * 9, (0, 1, 0), ("no", 20), [9] * 9),
    (shared, [], (0, 3, 2), ("no", 20), []),
    (shared, [], (0, 3, 0), ("no", 20), []),
    # all 2,048 rows, into a list as long, one shorter, one longer
    (lambda: shared(2048), [9] * 2048, (0, 0, 3), ("count", 2048), FULL),
    (lambda: shared(2048), [9] * 2047, (0, 0, 3), ("no", 21), [9] * 2047),
    (lambda: shared(2048), [9] * 2049, (1, 0, 2), ("count", 2048), [*FULL, 9]),
    (lambda: shared(2048), [9] * 2048, (1, 0, 0), ("count", 2045), [1, *range(4, 2048), 9, 9, 9]),
)
