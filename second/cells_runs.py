"""Runs of calls over lent tables, each determined by its seed: what cells.py and the archive are compared on.

A run is a generator. It yields ("lend", tables, scratch), which starts over on those cells, ("list", cells), which lends
another list of rows, or ("call", name, arguments), and is sent the answer to each call; what was lent stays lent, as the
calls left it, until the next "lend" or "list". Before the first "list" the list has no cells.

    python3 second/cells_runs.py CALLS SEED      makes the calls on cells.py alone, and counts what was reached
"""

import sys
from collections import Counter
from random import Random

import cells
import runs
from cells import CHANGES, ENDS, GONE, KINDS, NEW, ROW_COUNTS, SETS, SLOT_LINKS, SLOT_STAMPS
from cells_spans import SPANS
from rules import Index
from steps import step
from tables import (ABSENT, COMMIT, MOST_CHANGES, MOST_ENTRIES, MOST_RECORDS, MOST_ROWS, MOST_SLOTS, MOST_VALUES, NO_LINK,
                    SESSIONS, TIDY, WORDS, Change, Insert, Listed, Record, Session, Slot)

NAMES = ("begin", "query", "read", "update", "delete", "insert", "commit", "tidy", "abort", "span")
WEIGHTS = (6, 18, 12, 16, 7, 6, 16, 24, 2, 20)
THRESHOLDS = (0, 0, 1, 2, 8, 8, 8, 1000, 2 ** 32, 2 ** 64 - 1)
EDGES = (0, 1, 15, 16, 31, 32, 95, 96, 255, 256, 511, 512, 2047, 2048, 65535, 65536, 2 ** 31, 2 ** 32 - 1, 2 ** 32, 2 ** 63, 2 ** 64 - 1)


# Numbers and cells.


def number(random, count):
    """Mostly a number below the count; else the count, one above it, an edge, or one that only its low bits make small."""
    choice = random.random()
    if choice < 0.88 and count > 0:
        return random.randrange(count)
    if choice < 0.93:
        return count + random.randrange(2)
    if choice < 0.97:
        return random.choice(EDGES)
    return random.choice((2 ** 8, 2 ** 16, 2 ** 32, 2 ** 63)) + random.randrange(max(count, 1))


def any_cell(random, bits):
    """A cell of so many bits: small, all ones, or anything."""
    return random.choice((0, 1, random.randrange(40), 2 ** bits - 1, random.getrandbits(bits)))


# Garbage is cut out of one long stretch for each width, at a random place: making every cell anew would take most of the time.
GARBAGE = {bits: [any_cell(source, bits) for source in [Random(bits)] for _ in range(9973)]
           for bits in (8, 16, 32, 64)}


def garbage(random, n, bits):
    """So many cells of anything."""
    stretch = GARBAGE[bits]
    start = random.randrange(len(stretch))
    return (stretch[start:] + stretch * (n // len(stretch) + 1))[:n]


def any_cells(random, n, bits):
    """So many cells: all 0, or anything."""
    return [0] * n if random.random() < 0.3 else garbage(random, n, bits)


def any_scratch(random):
    """A scratch: mostly of 32 words or some more, at times shorter."""
    return any_cells(random, random.choice((32, 32, 32, 33, 40, 31, 0)), 64)


def litter(random, t):
    """Garbage in every cell that nothing judges: past what is in use, heads from C on, past a list; then cells beyond."""
    C, _, stamp, _, slots, changes = t.clock
    dirty(random, t.slots, [base + i for base in (0, SLOT_STAMPS, SLOT_LINKS) for i in range(slots, MOST_SLOTS)], 32)
    dirty(random, t.words, range(WORDS * slots, WORDS * MOST_SLOTS), 64)
    dirty(random, t.heads, range(C, MOST_VALUES), 32)
    dirty(random, t.log, [base + k for base in (0, KINDS, ROW_COUNTS, ENDS) for k in range(stamp, MOST_RECORDS)], 32)
    dirty(random, t.changes, [base + p for base in (0, SETS) for p in range(changes, MOST_CHANGES)], 32)
    for place in t.sessions:
        if place.live:
            dirty(random, place.at, range(place.count, MOST_ENTRIES), 16)
            dirty(random, place.to, range(place.count, MOST_ENTRIES), 8)
    if random.random() < 0.5:
        lengthen(random, t)


def dirty(random, table, places, bits):
    """Garbage at the places."""
    for place, cell in zip(places, garbage(random, len(places), bits)):
        table[place] = cell


def any_place(random):
    """A session's cells, anything."""
    return cells.Place(*(any_cell(random, 32) for _ in range(4)), any_cells(random, MOST_ENTRIES, 16), any_cells(random, MOST_ENTRIES, 8))


def lengthen(random, t):
    """Cells beyond the needed lengths, with anything in them."""
    for table, bits in ((t.clock, 32), (t.slots, 32), (t.words, 64), (t.heads, 32), (t.log, 32), (t.changes, 32)):
        table.extend(any_cell(random, bits) for _ in range(random.randrange(5)))
    t.sessions.extend(any_place(random) for _ in range(random.randrange(4)))


# Tables.


def begun(random):
    """Tables of anything, just created."""
    t = cells.Lent(*(any_cells(random, limit + random.randrange(3), bits) for limit, bits in
                     ((6, 32), (288, 32), (3072, 64), (32, 32), (2048, 32), (CHANGES, 32))),
                   [any_place(random) for _ in range(SESSIONS + random.randrange(3))])
    C = random.randint(1, 5)
    cells.create(t, C, [random.choice((GONE, *range(C))) for _ in range(random.randrange(12))])
    return t


def grown(random):
    """Tables that a run of the step program leaves."""
    index = Index()
    made = runs.KINDS["mixed"](random)
    answer = None
    for _ in range(random.choice((5, 30, 120, 400))):
        answer = step(index, made.send(answer))
    return cells.lay(index)


def any_changes(random, C, rows, most):
    """Changes of a record, rows among them more than once."""
    return [Change(random.randrange(rows), frozenset(v for v in range(C) if random.random() < 0.4))
            for _ in range(random.randrange(most) if rows else 0)]


def any_session(random, C, rows_at):
    """An open session of some start, with any list that is sound."""
    start = random.choice((len(rows_at) - 1, random.randrange(len(rows_at))))
    session = Session(start, rows_at[start])
    rows = random.sample(range(rows_at[start]), min(rows_at[start], random.choice((0, 1, 2, 4, MOST_ENTRIES))))
    entries = [Listed(row, random.choice((ABSENT, *range(C)))) for row in rows]
    entries += [Insert(random.randrange(C)) for _ in range(random.choice((0, 0, 1, 2)))]
    random.shuffle(entries)
    session.list = entries[:MOST_ENTRIES]
    return session


def by_hand(random):
    """Sound tables that no run makes: rows twice in a record, records of no change, any slots on any links, heads that are not
    the newest slot, values that hold the same rows, lists with what is absent."""
    C, rows = random.choice((1, 2, 3, 4, 32)), random.choice((0, 1, 3, 6, 70, 2000))
    index = Index()
    index.C, index.first_rows = C, rows
    rows_at = [rows]
    for _ in range(random.choice((0, 1, 2, 3, 5, 9))):
        rows = min(MOST_ROWS, rows + random.choice((0, 0, 1, 3)))
        index.log.append(Record(random.choice((COMMIT, TIDY)), rows, any_changes(random, C, min(rows, 8), 6)))
        rows_at.append(rows)
    index.stamp, index.rows = len(index.log), rows
    for v in range(C):
        index.slots.append(Slot(v, 0, NO_LINK, any_vector(random, rows_at[0])))
    for _ in range(random.choice((0, 0, 1, 3, 8, MOST_SLOTS - C))):
        add_slot(random, index, rows_at)
    index.heads = any_heads(random, index)
    for n in range(SESSIONS):
        if random.random() < 0.5:
            index.sessions[n] = any_session(random, C, rows_at)
    return cells.lay(index)


def any_vector(random, rows):
    """Some rows below the count, mostly few and small."""
    return frozenset(row for row in range(min(rows, 10)) if random.random() < 0.4) | frozenset(range(rows - 1, rows) if rows and random.random() < 0.3 else ())


def add_slot(random, index, rows_at):
    """A later slot that links to some earlier one of its value with a smaller stamp, where a stamp is left for it."""
    before = random.randrange(len(index.slots))
    if len(index.slots) < MOST_SLOTS and index.slots[before].stamp < index.stamp:
        stamp = random.randint(index.slots[before].stamp + 1, index.stamp)
        index.slots.append(Slot(index.slots[before].value, stamp, before, any_vector(random, rows_at[stamp])))


def full(random):
    """Tables at or just below one limit, of rows, records, changes or slots, and well below the others."""
    limit = random.choice(("rows", "records", "changes", "slots"))
    C = random.choice((1, 3, 32))
    rows = MOST_ROWS - random.choice((0, 1, 2, 33)) if limit == "rows" else 50
    records = MOST_RECORDS - random.choice((0, 1, 2)) if limit == "records" else random.choice((1, 3, 9))
    slots = MOST_SLOTS - random.choice((0, 0, 1)) if limit == "slots" else C + 2
    index = Index()
    index.create(C, [random.randrange(C) for _ in range(rows)])
    index.log = [Record(random.choice((COMMIT, TIDY)), rows, []) for _ in range(records)]
    for _ in range(20):
        change = Change(random.randrange(random.choice((4, 40))), frozenset(random.sample(range(C), random.randrange(2))))
        random.choice(index.log[:random.choice((1, records))]).changes.append(change)
    index.stamp = records
    for _ in range(20 * slots):
        if len(index.slots) < slots:
            add_slot(random, index, [rows] * (records + 1))
    index.heads = any_heads(random, index)
    for n in range(0, SESSIONS, 2):
        index.sessions[n] = any_session(random, C, [rows] * (records + 1))
    if limit == "changes":
        # so many are left that a tidy of value 0, or the list of session 0, fits exactly or is one too long
        index.sessions[0].stamp = records
        needed = random.choice((len(index.moved_rows(0, records)), len(index.sessions[0].list)))
        left = max(0, needed - random.randrange(2))
        index.log[0].changes[:0] = [Change(rows - 1, frozenset())] * (MOST_CHANGES - 20 - left)
    return cells.lay(index)


def poked(random):
    """Sound tables of a run or at a limit in which bits were set by hand: rows that several values hold."""
    t = random.choice((grown, full))(random)
    for _ in range(random.choice((1, 5, 60)) if t.clock[1] else 0):
        i, row = random.randrange(t.clock[4]), random.randrange(t.clock[1])
        t.words[WORDS * i + row // 64] |= 1 << row % 64
    return t


def any_heads(random, index):
    """For each value some slot of it, the first one or any."""
    return [random.choice([i for i, slot in enumerate(index.slots) if slot.value == v][:random.choice((1, MOST_SLOTS))]) for v in range(index.C)]


# The six faults that no reachable state shows: tables on which each shows, and the calls that show it.


def six_tables(C, log, slots, heads, start, entries=()):
    """Tables of four rows with session 0 open at the start."""
    index = Index()
    index.C, index.first_rows, index.rows = C, 4, 4
    index.log = [Record(kind, 4, [Change(row, frozenset(flips)) for row, flips in changes]) for kind, changes in log]
    index.stamp = len(index.log)
    index.slots = [Slot(value, stamp, link, frozenset(rows)) for value, stamp, link, rows in slots]
    index.heads = heads
    index.sessions[0] = Session(start, 4)
    index.sessions[0].list = list(entries)
    return cells.lay(index)


FIRST = [(0, 0, NO_LINK, {0, 1}), (1, 0, NO_LINK, {2})]

# name: (tables, calls)
SIX = {
    # the version at stamp 1 was made of something else than record 1: record 1's change of row 3 must not count again
    "query over records b to s": (lambda: six_tables(2, [(COMMIT, [(3, {1})]), (COMMIT, [(0, {1})])],
                                                     FIRST + [(1, 1, 1, {2})], [0, 2], 2), [("query", (0, 1, 8)), ("read", (0, 3))]),
    # the same with the version at stamp 2: records 1 and 2 lie before it
    "query over records 1 to s": (lambda: six_tables(2, [(COMMIT, [(3, {1})]), (COMMIT, [(0, {1})]), (COMMIT, [(1, {1})])],
                                                     FIRST + [(1, 2, 1, {2})], [0, 2], 3), [("query", (0, 1, 8)), ("read", (0, 3))]),
    # the head of 1 has stamp 2, above the start, and no record above the start names a moved row or has 1
    "no head test in staleness": (lambda: six_tables(2, [(COMMIT, [(3, {1})]), (COMMIT, [(0, {0})])],
                                                     FIRST + [(1, 2, 1, {2})], [0, 2], 1), [("tidy", (0, 1))]),
    # a tidy record above the start names the moved row 3, with a set without 1
    "the moved-row test on commits only": (lambda: six_tables(2, [(COMMIT, [(3, {1})]), (TIDY, [(3, set())])], FIRST, [0, 1], 1), [("tidy", (0, 1))]),
    # this one cannot show in an answer or a cell, on any sound tables: in a tidy that is not stale the head is the version at the
    # start and now, and a record above the start names no moved row and has no set with the value, so it flips and unflips none.
    # Here a later version stands beside the head's chain, and a later record names another row
    "the tidy vector queried at now": (lambda: six_tables(2, [(COMMIT, [(3, {1})]), (COMMIT, [(0, {0})])],
                                                          FIRST + [(1, 1, 1, {2}), (1, 2, 2, {0})], [0, 2], 1), [("tidy", (0, 1)), ("query", (0, 1, 8))]),
    # rows 0 and 1 are held by both values
    "read taking the largest value": (lambda: six_tables(2, [], [(0, 0, NO_LINK, {0, 1}), (1, 0, NO_LINK, {0, 1, 2})], [0, 1], 0),
                                      [("read", (0, 0)), ("read", (0, 2)), ("delete", (0, 1)), ("commit", (0,))]),
}


def six(random):
    """The calls of one of the six."""
    made, asked = SIX[random.choice(sorted(SIX))]
    t = made()
    litter(random, t)
    yield ("lend", t, any_cells(random, WORDS, 64))
    for name, args in asked:
        yield ("call", name, args)


# Each clause of number 2 by itself: what is changed in sound tables, and the sentence of cells.py that then fails, if one does.


def whole():
    """Tables of three records, two later slots and two open sessions."""
    index = Index()
    index.C, index.first_rows, index.rows, index.stamp = 3, 4, 6, 3
    index.log = [Record(COMMIT, 4, [Change(0, frozenset({0, 1})), Change(2, frozenset({1}))]),
                 Record(COMMIT, 6, [Change(4, frozenset({2})), Change(5, frozenset({0}))]), Record(TIDY, 6, [Change(0, frozenset({1}))])]
    index.slots = [Slot(0, 0, NO_LINK, frozenset({0, 3})), Slot(1, 0, NO_LINK, frozenset({1})), Slot(2, 0, NO_LINK, frozenset({2})),
                   Slot(0, 3, 0, frozenset({3, 5})), Slot(1, 2, 1, frozenset({0, 1, 2}))]
    index.heads = [3, 4, 2]
    index.sessions[0], index.sessions[1] = Session(1, 4), Session(3, 6)
    index.sessions[0].list = [Listed(1, 2), Listed(3, ABSENT), Insert(0)]
    return cells.lay(index)


def put(**tables):
    """Changes cells: table = {cell: number}; session0 = {field: number} or {(list, place): number}."""
    def change(t):
        for name, stores in tables.items():
            for cell, value in stores.items():
                place = t.sessions[int(name[7:])] if name.startswith("session") else None
                if place is None:
                    getattr(t, name)[cell] = value
                elif isinstance(cell, tuple):
                    getattr(place, cell[0])[cell[1]] = value
                else:
                    setattr(place, cell, value)
    return change


def many_changes(count):
    """One record of so many changes of row 0 with no flips, over a change table that is long enough for one too many."""
    def change(t):
        t.changes += [0, 0]
        t.changes[:CHANGES] = [0] * CHANGES
        t.clock[2], t.clock[3], t.clock[4], t.clock[5] = 1, 4, 3, count
        t.log[ROW_COUNTS], t.log[ENDS] = 4, count
        t.heads[:3] = [0, 1, 2]
        t.sessions[:2] = [cells.Place(), cells.Place()]
    return change


def many_rows(count):
    """No record and no session, and so many rows."""
    def change(t):
        t.clock[:6] = [3, count, 0, count, 3, 0]
        t.heads[:3] = [0, 1, 2]
        t.sessions[:2] = [cells.Place(), cells.Place()]
    return change


CLAUSES = (
    ("sound", None, put()),
    ("C is 0", "counts_hold", put(clock={0: 0})),
    ("C is 33", "counts_hold", put(clock={0: 33})),
    ("2,048 rows", None, many_rows(2048)),
    ("2,049 rows", "counts_hold", many_rows(2049)),
    ("the first row count alone", "counts_hold", put(clock={1: 2049})),
    ("stamp 513", "counts_hold", put(clock={2: 513})),
    ("slots below C", "counts_hold", put(clock={4: 2})),
    ("97 slots", "counts_hold", put(clock={4: 97})),
    ("2,048 changes", None, many_changes(2048)),
    ("2,049 changes", "counts_hold", many_changes(2049)),
    ("a record's stamp", "records_hold", put(log={1: 3})),
    ("kind 0", "records_hold", put(log={KINDS + 1: 0})),
    ("kind 3", "records_hold", put(log={KINDS + 1: 3})),
    ("a tidy for a commit", None, put(log={KINDS + 1: 2})),
    ("an end that falls", "records_hold", put(log={ENDS: 5})),
    ("a record of no change", None, put(log={ENDS + 1: 5})),
    ("the first record of no change", None, put(log={ENDS: 0}, changes={0: 3, 1: 3})),
    ("an end above the changes in use", "records_hold", put(log={ENDS + 2: 6})),
    ("changes in use above the last end", "records_hold", put(clock={5: 6})),
    ("changes and no record", "records_hold", lambda t: (many_rows(4)(t), put(clock={5: 1})(t))),
    ("a row count that falls", "records_hold", put(log={ROW_COUNTS + 1: 7})),
    ("a row count below the first", "records_hold", put(log={ROW_COUNTS: 3})),
    ("the row count is not the last", "records_hold", put(clock={3: 7})),
    ("a change's row is its record's row count", "changes_hold", put(changes={0: 4})),
    ("a change's row that a later record has", "changes_hold", put(changes={1: 5})),
    ("the last row of the record", None, put(changes={0: 3})),
    ("a row twice in one record", None, put(changes={1: 0})),
    ("a set with C", "changes_hold", put(changes={SETS + 1: 8})),
    ("a set of all values", None, put(changes={SETS + 1: 7})),
    ("a set with value 31", "changes_hold", put(changes={SETS + 4: 2 ** 31})),
    ("slot 1 has value 0", "slots_hold", put(slots={1: 0})),
    ("slot 2 has stamp 1", "slots_hold", put(slots={SLOT_STAMPS + 2: 1})),
    ("slot 2 has a link", "slots_hold", put(slots={SLOT_LINKS + 2: 1})),
    ("a later slot's value is C", "slots_hold", put(slots={3: 3})),
    ("a later slot's value is another's", "slots_hold", put(slots={3: 2})),
    ("a later slot of a stamp to come", "slots_hold", put(slots={SLOT_STAMPS + 3: 4})),
    ("a later slot without a link", "slots_hold", put(slots={SLOT_LINKS + 3: 0})),
    ("a later slot that links to itself", "slots_hold", put(slots={SLOT_LINKS + 3: 4})),
    ("a link to a slot of another value", "slots_hold", put(slots={SLOT_LINKS + 3: 2})),
    ("a link of 2^32 - 1", "slots_hold", put(slots={SLOT_LINKS + 3: 2 ** 32 - 1})),
    ("a later slot with stamp 0", "slots_hold", put(slots={SLOT_STAMPS + 4: 0})),
    ("a link to a slot of the same stamp", "slots_hold", put(slots={4: 0, SLOT_STAMPS + 4: 3, SLOT_LINKS + 4: 4}, heads={1: 1})),
    ("a link to a later stamp", "slots_hold", put(slots={4: 0, SLOT_STAMPS + 4: 2, SLOT_LINKS + 4: 4}, heads={1: 1})),
    ("a link past a slot of the same value", None, put(slots={4: 0, SLOT_STAMPS + 4: 2, SLOT_LINKS + 4: 1}, heads={1: 1})),
    ("a head not in use", "heads_hold", put(heads={1: 5}, slots={5: 1})),
    ("a head of another value", "heads_hold", put(heads={1: 3})),
    ("a head that is not the newest slot", None, put(heads={0: 0})),
    ("a head past C", None, put(heads={3: 2 ** 32 - 1})),
    ("a bit at the first row count", "vectors_hold", put(words={0: 2 ** 4})),
    ("the last bit of a vector", "vectors_hold", put(words={31: 2 ** 63})),
    ("a bit at the row count of the slot's stamp", "vectors_hold", put(words={32 * 4: 2 ** 6})),
    ("a bit at a row of the slot's stamp", None, put(words={32 * 4: 2 ** 5})),
    ("two values hold one row", None, put(words={32: 2 ** 3})),
    ("a bit of a slot not in use", None, put(words={32 * 5 + 31: 2 ** 63})),
    ("a free session with a start", "sessions_hold", put(session7={"start": 1})),
    ("a free session with rows", "sessions_hold", put(session7={"rows": 4})),
    ("a free session with a count", "sessions_hold", put(session7={"count": 1})),
    ("a free session with a row cell", "sessions_hold", put(session15={("at", 31): 1})),
    ("a free session with a target", "sessions_hold", put(session15={("to", 31): 1})),
    ("live is 2", "sessions_hold", put(session1={"live": 2})),
    ("a start above the stamp", "sessions_hold", put(session1={"start": 4})),
    ("rows of another moment", "sessions_hold", put(session0={"rows": 6})),
    ("a start of the same row count", None, put(session0={"start": 0})),
    ("33 entries", "sessions_hold", lambda t: (put(session1={"count": 33})(t), t.sessions[1].at.__setitem__(slice(None), [NEW] * 32))),
    ("32 entries", None, lambda t: (put(session1={"count": 32})(t), t.sessions[1].at.__setitem__(slice(None), [NEW] * 32))),
    ("a listed row at the start row count", "sessions_hold", put(session0={("at", 0): 4})),
    ("a listed row 65,534", "sessions_hold", put(session0={("at", 0): NEW - 1})),
    ("a row listed twice", "sessions_hold", put(session0={("at", 1): 1})),
    ("an insert twice", None, put(session0={("at", 0): NEW})),
    ("a target of C", "sessions_hold", put(session0={("to", 0): 3})),
    ("a target of 254", "sessions_hold", put(session0={("to", 0): 254})),
    ("an insert of C", "sessions_hold", put(session0={("to", 2): 3})),
    ("an insert of absent", "sessions_hold", put(session0={("to", 2): GONE})),
    ("cells past the list", None, put(session0={("at", 3): 1, ("to", 3): 77, ("at", 31): 65534})),
)


def clause(random):
    """Some calls on the tables of one clause."""
    _, _, change = random.choice(CLAUSES)
    t = whole()
    change(t)
    yield ("lend", t, any_cells(random, WORDS, 64))
    yield from calls(random, t, 3)


# Each limit, at it and one below: session 0 starts at the last record and lists row 0 and an insert; value 1 has one row to move, row 1.


def at_limit(rows=10, records=3, changes=9, slots=2):
    """Tables of two values with so many of each in use."""
    index = Index()
    index.create(2, [0] * rows)
    index.log = [Record(COMMIT, rows, []) for _ in range(records)]
    index.log[0].changes.extend([Change(2, frozenset())] * (changes - 1) + [Change(1, frozenset({0, 1}))])
    index.stamp = records
    index.slots += [Slot(0, records, 0, frozenset())] * (slots - 2)
    index.sessions[0] = Session(records, rows)
    index.sessions[0].list = [Listed(0, 1), Insert(0)]
    return cells.lay(index)


# the tables, the call, and the answer written by hand
LIMITS = (
    (lambda: at_limit(rows=2047), ("commit", (0,)), ("stamp", 4, 2048)),
    (lambda: at_limit(rows=2048), ("commit", (0,)), ("no", 15)),
    (lambda: at_limit(records=511), ("commit", (0,)), ("stamp", 512, 11)),
    (lambda: at_limit(records=512), ("commit", (0,)), ("no", 16)),
    (lambda: at_limit(changes=2046), ("commit", (0,)), ("stamp", 4, 11)),
    (lambda: at_limit(changes=2047), ("commit", (0,)), ("no", 17)),
    (lambda: at_limit(rows=2048, records=512, changes=2048), ("commit", (0,)), ("no", 15)),
    (lambda: at_limit(records=512, changes=2048), ("commit", (0,)), ("no", 16)),
    (lambda: at_limit(records=511), ("tidy", (0, 1)), ("stamp", 512, 1)),
    (lambda: at_limit(records=512), ("tidy", (0, 1)), ("no", 16)),
    (lambda: at_limit(changes=2047), ("tidy", (0, 1)), ("stamp", 4, 1)),
    (lambda: at_limit(changes=2048), ("tidy", (0, 1)), ("no", 17)),
    (lambda: at_limit(slots=95), ("tidy", (0, 1)), ("stamp", 4, 1)),
    (lambda: at_limit(slots=96), ("tidy", (0, 1)), ("no", 18)),
    (lambda: at_limit(records=512, changes=2048, slots=96), ("tidy", (0, 1)), ("no", 16)),
    (lambda: at_limit(changes=2048, slots=96), ("tidy", (0, 1)), ("no", 17)),
)


def fixed():
    """Every clause of number 2, every limit, all of the six and the spans, once each, in order: what a seed may miss."""
    random = Random(0)
    yield ("list", garbage(random, 9, 16))
    for _, _, change in CLAUSES:
        t = whole()
        change(t)
        yield ("lend", t, garbage(random, WORDS, 64))
        for name, args in (("begin", (5,)), ("query", (1, 0, 0)), ("span", (1, 0, 1)), ("insert", (1, 2)), ("commit", (1,)), ("tidy", (5, 0))):
            yield ("call", name, args)
    for make, (name, args), _ in LIMITS:
        yield ("lend", make(), garbage(random, WORDS, 64))
        yield ("call", name, args)
    for make, asked in SIX.values():
        yield ("lend", make(), garbage(random, WORDS, 64))
        for name, args in asked:
            yield ("call", name, args)
    for make, lent, args, _, _ in SPANS:
        yield ("lend", make(), garbage(random, WORDS, 64))
        yield ("list", list(lent))
        yield ("call", "span", args)


# Damage: a cell in use is changed. Each function changes one, and says nothing of whether the sentence then fails.


def at_most(random, limit, now):
    """A number of 32 bits around a limit, or around what stands there."""
    return min(max(0, random.choice((limit, limit + 1, limit + 2, now - 1, now + 1, 0, 2 ** 32 - 1))), 2 ** 32 - 1)


def hurt_clock(random, t):
    """One of the six counts."""
    i = random.randrange(6)
    t.clock[i] = at_most(random, (MOST_VALUES, MOST_ROWS, MOST_RECORDS, MOST_ROWS, MOST_SLOTS, MOST_CHANGES)[i], t.clock[i])


def hurt_column(base):
    """Of some record the stamp, the kind, the row count or the end."""
    def hurt(random, t):
        if t.clock[2]:
            k = base + random.randrange(t.clock[2])
            t.log[k] = at_most(random, 3, t.log[k])
    return hurt


def hurt_change(random, t):
    """A change's row, or its set."""
    if t.clock[5]:
        p = random.randrange(t.clock[5])
        if random.random() < 0.5:
            t.changes[p] = at_most(random, random.choice((t.clock[1], t.clock[3])), t.changes[p])
        else:
            t.changes[SETS + p] |= 1 << min(31, t.clock[0] - random.randrange(2) + random.randrange(2))


def hurt_slot(random, t):
    """A slot's value, stamp or link, of the first C or of the later ones."""
    i = random.randrange(t.clock[0]) if random.random() < 0.4 else random.randrange(t.clock[4])
    base = random.choice((0, SLOT_STAMPS, SLOT_LINKS))
    t.slots[base + i] = at_most(random, random.choice((t.clock[0], t.clock[2], i)), t.slots[base + i])


def hurt_head(random, t):
    """A head."""
    t.heads[random.randrange(t.clock[0])] = at_most(random, t.clock[4] - 1, random.randrange(t.clock[4]))


def hurt_vector(random, t):
    """A bit of a vector in use, mostly at the row count or above."""
    i, row = random.randrange(t.clock[4]), random.choice((t.clock[1], t.clock[3], t.clock[3] - 1, MOST_ROWS - 1, random.randrange(MOST_ROWS)))
    row = min(max(row, 0), MOST_ROWS - 1)
    t.words[WORDS * i + row // 64] |= 1 << row % 64


def hurt_session(random, t):
    """A cell of a session: its state, start, rows or count, an entry, or a cell past the list."""
    place = t.sessions[random.randrange(SESSIONS)]
    what = random.randrange(7)
    i = random.randrange(place.count) if 0 < place.count <= MOST_ENTRIES and random.random() < 0.8 else random.randrange(MOST_ENTRIES)
    if what == 0:
        place.live = random.choice((0, 1, 2, 2 ** 32 - 1))
    elif what == 1:
        place.start = at_most(random, t.clock[2], place.start)
    elif what == 2:
        place.rows = at_most(random, t.clock[3], place.rows)
    elif what == 3:
        place.count = at_most(random, MOST_ENTRIES, place.count)
    elif what == 4:
        place.at[i] = random.choice((place.rows % NEW, place.at[0], NEW, NEW - 1, 0))
    elif what == 5:
        place.to[i] = random.choice((t.clock[0] % 256, GONE, GONE - 1, 0))
    else:
        place.at[i], place.to[i] = NEW, random.choice((GONE, t.clock[0] % 256, 0))


HURTS = (hurt_clock, hurt_column(0), hurt_column(KINDS), hurt_column(ROW_COUNTS), hurt_column(ENDS), hurt_change, hurt_change, hurt_slot,
         hurt_slot, hurt_head, hurt_vector, hurt_session, hurt_session, hurt_session)


def hurt(random, t):
    """One to three cells changed, while the counts still say what is in use."""
    for _ in range(random.choice((1, 1, 1, 2, 3))):
        if cells.counts_hold(t):
            random.choice(HURTS)(random, t)


def shorten(random, t):
    """One table or two lent without room."""
    for name in random.sample(("clock", "slots", "words", "heads", "log", "changes", "sessions"), random.choice((1, 1, 2))):
        table = getattr(t, name)
        limit = {"clock": 6, "slots": 288, "words": 3072, "heads": 32, "log": 2048, "changes": CHANGES, "sessions": SESSIONS}[name]
        del table[random.choice((limit - 1, limit - 1, 0, random.randrange(limit))):]


# The runs.


def any_column(random):
    """What create is given: mostly sound, at times around each limit of 3."""
    C = number(random, 8) if random.random() < 0.6 else random.choice((0, 1, 32, 33, 2 ** 32 + 1, 2 ** 64 - 1))
    rows = random.choice((0, 1, 5, 64, 65, 300, MOST_ROWS, MOST_ROWS + 1, 5000))
    column = [random.choice((GONE, *range(min(max(C, 1), 32)))) for _ in range(rows)]
    if column and random.random() < 0.2:
        column[random.randrange(rows)] = random.choice((min(C, 255), 254, 255, 32, 0))
    return (C, column)


def any_span(random, C):
    """The ends of a span: mostly in order, at times the wrong way round, at times with an end that is no value."""
    ends = [number(random, min(C, 40)), number(random, min(C, 40))]
    return ends if random.random() < 0.2 else sorted(ends)


def list_for(random, t, args):
    """A list for a span: as long as its answer, one or more cells shorter or longer, or of no cells."""
    answer = cells.perform(t, [], "span", args, [0] * MOST_ROWS)
    rows = answer[1] if answer[0] == "count" else random.choice((0, 3, 9))
    length = random.choice((rows, rows, rows, rows - 1, rows - 1, rows + 1, rows + 9, rows // 2, 0, MOST_ROWS, MOST_ROWS + 1))
    return any_cells(random, max(0, length), 16)


def any_call(random, t):
    """A call with its arguments, near what the tables hold."""
    name = random.choices(NAMES, WEIGHTS)[0]
    if not any(place.live for place in t.sessions[:SESSIONS]) and random.random() < 0.6:
        name = "begin"
    C, rows = (t.clock + [0] * 6)[0], (t.clock + [0] * 6)[3]
    opened = [n for n, place in enumerate(t.sessions[:SESSIONS]) if place.live]
    session = random.choice(opened) if opened and random.random() < 0.85 else number(random, SESSIONS)
    row, value = number(random, min(rows, random.choice((8, 10 ** 9)))), number(random, min(C, 40))
    args = {"span": (session, *any_span(random, C)), "read": (session, row), "delete": (session, row), "update": (session, row, value), "query": (session, value, random.choice(THRESHOLDS)),
            "insert": (session, value), "tidy": (session, value)}.get(name, (session,))
    return name, args


def calls(random, t, count):
    """So many calls; before a span mostly another list, after a query the picker, at times at a place that it did not name."""
    for _ in range(count):
        name, args = ("create", any_column(random)) if random.random() < 0.04 else any_call(random, t)
        if name == "span" and random.random() < 0.85:
            yield ("list", list_for(random, t, args))
        answer = yield ("call", name, args)
        if answer[0] == "query":
            yield ("call", "picked", (answer[3],))
        elif random.random() < 0.05:
            # places 97 and on name no slot, also where words beyond the needed length were lent
            yield ("call", "picked", (random.choice((0, 1, 2, MOST_SLOTS, MOST_SLOTS + 1, 2 ** 32, 2 ** 32 + 1, 2 ** 59, 2 ** 63, 2 ** 64 - 1)),))


TABLES = ((begun, 3), (grown, 4), (by_hand, 8), (full, 3), (poked, 2))


def any_run(random):
    """Sound tables of every kind, half of them damaged or short, each with some calls; the six and the clauses among them."""
    while True:
        if random.random() < 0.08:
            yield from six(random)
            continue
        if random.random() < 0.15:
            yield from clause(random)
            continue
        t = random.choices([made for made, _ in TABLES], [weight for _, weight in TABLES])[0](random)
        if len(t.clock) == 6 and len(t.words) == 3072:
            litter(random, t)
        choice = random.random()
        if choice < 0.4:
            hurt(random, t)
        elif choice < 0.47:
            shorten(random, t)
        # what is lent is written by whoever runs the calls; `t` is that very object, and shows what they left
        yield ("lend", t, any_scratch(random))
        yield from calls(random, t, random.choice((1, 2, 3)) if 0.0 <= choice < 0.47 else random.choice((3, 8, 20)))


def steps(seed):
    """The run of a seed."""
    return any_run(Random(seed))


def made(run, count=None):
    """Makes so many calls of a run, or all, on cells.py: yields the step, the answer, the tables, the scratch and the list after it, and
    which sentence of number 2 failed before it. A step that lends has no answer."""
    answer, t, scratch, row_list, left = None, None, None, [], count
    while left is None or left > 0:
        try:
            asked = run.send(answer)
        except StopIteration:
            return
        answer, why = None, None
        if asked[0] == "lend":
            _, t, scratch = asked
        elif asked[0] == "list":
            _, row_list = asked
        else:
            why = None if cells.without_room(t) else cells.failing(t)
            answer = cells.perform(t, scratch, *asked[1:], row_list)
            left = left and left - 1
        yield asked, answer, t, scratch, row_list, why


def reached(seed, count):
    """What the calls of a seed reached: (call, kind or refusal), and the sentences that failed where 2 was given."""
    answers, sentences = Counter(), Counter()
    for asked, answer, _, _, _, why in made(steps(seed), count):
        if asked[0] == "call":
            answers[asked[1], answer[1] if answer[0] == "no" else answer[0]] += 1
            if answer == ("no", 2):
                sentences[why] += 1
    return answers, sentences


def main():
    """Counts what a run reaches."""
    answers, sentences = reached(int(sys.argv[2]), int(sys.argv[1]))
    for name in ("create", *NAMES, "picked"):
        print(name, " ".join(f"{what}:{n}" for (call, what), n in sorted(answers.items(), key=str) if call == name))
    print("number 2:", " ".join(f"{what}:{n}" for what, n in sentences.most_common()))


if __name__ == "__main__":
    main()
