"""Runs that reach every limit: one scene for each limit, then some steps at it."""

from making import any_column, column_line, in_turn, interleave, refused, say
from tables import MOST_CHANGES, MOST_ENTRIES, MOST_RECORDS, MOST_ROWS, MOST_SLOTS, MOST_VALUES


def widest_columns(random):
    """C 32 and 33, 2,048 and 2,049 rows, and a value that is C."""
    for C in (1, 32, 33, 0, 254):
        yield column_line(C, any_column(random, max(C, 1), 20))
    C = random.randint(1, 32)
    yield column_line(C, any_column(random, C, 12) + [C])
    for rows in (MOST_ROWS - 1, MOST_ROWS, MOST_ROWS + 1):
        yield column_line(C, any_column(random, C, rows))
    yield from interleave(random, C, MOST_ROWS, 3, 60)


def full_list(random):
    """Lists of 32 entries: a new entry is refused, a repeated change is accepted."""
    C = random.randint(1, 5)
    yield column_line(C, any_column(random, C, 40))
    for session in range(3):
        yield say("begin", session)
        rows = random.sample(range(40), MOST_ENTRIES)
        for row in rows:
            choice = random.random()
            if choice < 0.7:
                yield say("update", session, row, random.randrange(C))
            elif choice < 0.8:
                yield say("delete", session, row)
            else:
                yield say("insert", session, random.randrange(C))
        for row in range(40):
            yield say("update", session, row, random.randrange(C))
        yield say("insert", session, 0)
        for row in range(40):
            yield say("delete", session, row)
    for session in range(3):
        yield say("commit", session)
    yield from interleave(random, C, 40, 4, 60)


def full_rows(random):
    """Inserts up to 2,048 rows, by several sessions that began before."""
    C = random.randint(1, 5)
    rows = MOST_ROWS - random.randint(0, 70)
    yield column_line(C, any_column(random, C, rows))
    for session in range(6):
        yield say("begin", session)
        for _ in range(random.randint(1, MOST_ENTRIES)):
            yield say("insert", session, random.randrange(C))
    for session in range(6):
        answer = yield say("commit", session)
        if answer[0] == "ok":
            rows = answer[2]
    while rows < MOST_ROWS:
        yield say("begin", 6)
        for _ in range(min(MOST_ROWS - rows, MOST_ENTRIES)):
            yield say("insert", 6, random.randrange(C))
        answer = yield say("commit", 6)
        rows = answer[2]
    yield say("begin", 6)
    yield say("insert", 6, random.randrange(C))
    yield say("commit", 6)
    yield from interleave(random, C, MOST_ROWS, 8, 60)


def inserted_rows(random):
    """A column of no rows that inserts alone bring to 2,048 rows and 2,048 changes."""
    C = random.randint(1, 5)
    yield column_line(C, [])
    answer = ("ok",)
    while answer[0] == "ok":
        yield say("begin", 0)
        for _ in range(MOST_ENTRIES):
            yield say("insert", 0, random.randrange(C))
        answer = yield say("commit", 0)
    yield from interleave(random, C, MOST_ROWS, 4, 60)


def full_records(random):
    """Commits and tidies up to 512 records."""
    C = random.randint(2, 5)
    rows = random.randint(1, 6)
    yield column_line(C, [random.randrange(C) for _ in range(rows)])
    answer = ("ok",)
    while not refused(answer, 16):
        session = random.randrange(3)
        yield say("abort", session)
        yield say("begin", session)
        yield say("update", session, random.randrange(rows), random.randrange(C))
        if random.random() < 0.1:
            yield say("tidy", random.randrange(4), random.randrange(C))
        answer = yield say("commit", session)
    for value in range(C):
        yield say("abort", 3)
        yield say("begin", 3)
        yield say("tidy", 3, value)
    yield from interleave(random, C, rows, 4, 60)


def list_and_commit(session, rows, values):
    """A session that lists the rows with the values and commits."""
    yield say("abort", session)
    yield say("begin", session)
    for row, value in zip(rows, values):
        yield say("update", session, row, value)
    yield say("commit", session)


def full_changes(random):
    """Commits up to so many changes that a tidy fills the 2,048, or would pass them by one; then shorter lists."""
    C = random.randint(2, 5)
    moved = random.randint(1, 20)
    left = MOST_CHANGES - 2 * moved + random.choice((0, 1))
    yield column_line(C, [0] * 60)
    yield from list_and_commit(0, range(moved), [1] * moved)
    others = [value for value in range(C) if value != 1]
    while left > 0:
        length = min(left, MOST_ENTRIES)
        yield from list_and_commit(0, random.sample(range(20, 60), length), random.choices(others, k=length))
        left -= length
    yield say("begin", 1)
    yield say("tidy", 1, 1)
    for length in (moved, moved - 1, 1):
        yield from list_and_commit(0, range(20, 20 + length), [0] * length)
    for value in range(C):
        yield say("begin", 2)
        yield say("tidy", 2, value)
    yield from interleave(random, C, 60, 4, 60)


def full_slots(random):
    """Tidies up to 96 slots."""
    C = random.choice((2, 5, 31, 32))
    yield column_line(C, [random.randrange(C) for _ in range(8)])
    answer = ("ok",)
    while not refused(answer, 16, 17, 18):
        value = random.randrange(C)
        yield say("begin", 0)
        yield say("update", 0, random.randrange(8), value)
        yield say("commit", 0)
        yield say("begin", 1)
        answer = yield say("tidy", 1, value)
        yield say("abort", 1)
    yield from interleave(random, C, 8, 4, 60)


def full_together(random):
    """96 slots and 2,048 changes at once, and by turns 2,048 rows and 512 records: the smallest number has to win."""
    C, slots = MOST_VALUES, MOST_VALUES
    rows = random.choice((50, MOST_ROWS))
    records = random.choice((400, MOST_RECORDS))
    yield column_line(C, [random.randrange(C) for _ in range(rows)])
    yield from in_turn(say("begin", 9), say("update", 9, 0, 0), say("insert", 9, 0))
    made, changes = 0, 0
    while made < records:
        length = (MOST_CHANGES - changes) // (records - made)
        value = random.randrange(C)
        yield say("begin", 0)
        for row in random.sample(range(40), length):
            yield say("update", 0, row, value)
        yield say("commit", 0)
        yield say("begin", 8)
        made, changes = made + 1, changes + length
        if slots < MOST_SLOTS:
            yield say("begin", 1)
            answer = yield say("tidy", 1, value)
            if answer[0] == "ok":
                made, changes, slots = made + 1, changes + answer[2], slots + 1
            yield say("abort", 1)
    yield say("begin", 2)
    for session in (2, 8, 9):
        yield say("commit", session)
        yield from in_turn(*(say("tidy", session, value) for value in range(C)))
    yield from in_turn(say("update", 2, 0, 1), say("commit", 2), say("insert", 2, 1), say("commit", 2))
    yield from interleave(random, C, rows, 4, 60)


SCENES = (widest_columns, full_list, full_rows, inserted_rows, full_records, full_changes, full_slots, full_together)


def limits(random):
    """Runs that reach every limit."""
    while True:
        for scene in random.sample(SCENES, len(SCENES)):
            yield from scene(random)
