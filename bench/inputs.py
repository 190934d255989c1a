"""The inputs of the measurement, each determined by its name: the same lines on every machine.

A workload is a run-up, lines that bring the tables to a state, and the lines whose cost is asked for. Every run-up
starts with a column, so that a workload can be repeated in one input.
"""

import sys
from collections import namedtuple
from pathlib import Path
from random import Random

sys.path.append(str(Path(__file__).resolve().parent.parent / "second"))

from making import column_line, say
from rules import Index
from runs import lines_of
from steps import step
from tables import ABSENT, MOST_CHANGES, MOST_RECORDS, MOST_ROWS, MOST_VALUES, SESSIONS

Workload = namedtuple("Workload", "name runup lines")

# Spans of so many values on the tables that a run-up leaves; bench/spans.c makes them.
Spans = namedtuple("Spans", "name runup values")

# A growth series: what grows, its unit, its points, for each call the workload at each point, and, where the costs are to be told
# without those of a refused line, that one's workload at each point.
Series = namedtuple("Series", "name unit points calls less", defaults=((),))

EVENINGS = (1, 2, 3)
EVENING_LINES = 10000


def evening():
    """Evenings of colleges, as the second program's generator makes them."""
    return Workload("evening", [], [line for seed in EVENINGS for line in lines_of("evening", EVENING_LINES, seed)])


def fill(random, first):
    """Lines that bring a column of `first` rows to 2,048 rows, 512 records, 2,048 changes and 96 slots.

    The generator is sent the answer to each. Sessions 2 to 15 begin along the way, with lists of up to 14 rows.
    """
    rows, records, changes = first, 0, 0
    yield column_line(MOST_VALUES, [random.randrange(MOST_VALUES) for _ in range(first)])
    while records < MOST_RECORDS:
        value = random.randrange(MOST_VALUES)
        length = (MOST_CHANGES - changes) // (MOST_RECORDS - records)
        yield say("begin", 0)
        for row in random.sample(range(0, first - 1, 16), length - 1):
            yield say("update", 0, row, value)
        if rows < MOST_ROWS:
            yield say("insert", 0, value)
            rows += 1
        else:
            yield say("update", 0, first - 1, value)
        yield say("commit", 0)
        records, changes = records + 1, changes + length
        if records % 8 == 4:
            yield say("begin", 1)
            _, _, moved = yield say("tidy", 1, value)
            yield say("abort", 1)
            records, changes = records + 1, changes + moved
        session = 2 + records * (SESSIONS - 2) // (MOST_RECORDS + 1)
        yield say("begin", session)
        if records % 3 == 0:
            yield say("update", session, records % (session - 1), value)


def all_of(run):
    """The lines of a generator that is sent the second program's answers."""
    index = Index()
    lines = []
    answer = None
    while True:
        try:
            lines.append(run.send(answer))
        except StopIteration:
            return lines
        answer = step(index, lines[-1])


def full(name, first):
    """Queries, reads and updates by sessions of many starts on tables that are full."""
    random = Random(first)
    lines = []
    for _ in range(400):
        session = random.randrange(2, SESSIONS)
        lines.append(say("query", session, random.randrange(MOST_VALUES)))
        lines.append(say("read", session, random.randrange(first)))
        lines.append(say("update", session, random.randrange(session - 1), random.randrange(MOST_VALUES)))
    return Workload(name, all_of(fill(random, first)), lines)


def columns(C):
    """Columns of 2,048 rows, one in fifty absent."""
    random = Random(C)
    cells = [ABSENT if random.random() < 0.02 else random.randrange(C) for _ in range(MOST_ROWS)]
    return Workload("columns of values below %d" % C, [], [column_line(C, cells[k:] + cells[:k]) for k in range(100)])


def workloads():
    """The workloads of the first table; in the grown tables, inserts brought the last 48 rows."""
    tables = [full("full tables", MOST_ROWS), full("full tables, grown", MOST_ROWS - 48)]
    return [evening()] + tables + [columns(8), columns(32)]


def spans():
    """Spans of a quarter of the values and of all, on tables that are full."""
    runup = full("full tables", MOST_ROWS).runup
    return [Spans("span of %d values, full tables" % values, runup, values) for values in (8, MOST_VALUES)]


VALUES = 4
LISTED = 4  # the changes of each record where rows are looked up
OLDEST, NEWEST = 0, 1
EARLY = (0, 1, 2, 3)
LATE = (4, 5, 6, 7)
FILLER, ASKER = 14, 15
KEPT = len(EARLY + LATE)


def lister(session):
    """The lines of a session that lists the row of its own number, which no record names."""
    return [say("begin", session), say("update", session, session, session % VALUES)]


def state(rows, records, changes):
    """The lines that make a column of so many rows, and so many records with so many changes in all.

    Four sessions begin before the records and four after them, each with one row to commit, and one that asks.
    """
    runup = [column_line(VALUES, [row % VALUES for row in range(rows)])]
    for session in EARLY:
        runup += lister(session)
    for record in range(records):
        runup.append(say("begin", FILLER))
        for change in range(changes * record // records, changes * (record + 1) // records):
            turn, row = divmod(change, rows - KEPT)
            runup.append(say("update", FILLER, KEPT + row, (KEPT + row + turn + 1) % VALUES))
        runup.append(say("commit", FILLER))
    for session in LATE:
        runup += lister(session)
    return runup + [say("begin", ASKER)]


def asked(rows):
    """The lines that are measured at a state: queries, reads, and commits of the lists made before."""
    return {
        "query": [say("query", ASKER, value) for value in range(VALUES) for _ in range(4)],
        "read": [say("read", ASKER, row * (rows // 16 - 1)) for row in range(16)],
        "commit": [say("commit", session) for session in EARLY + LATE],
    }


def series(name, unit, states):
    """A growth series: for each call, its workload at each state."""
    calls = {"query": [], "read": [], "commit": []}
    for point, (rows, records, changes) in states.items():
        runup = state(rows, records, changes)
        for call, lines in asked(rows).items():
            calls[call].append(Workload("%s at %d %s" % (call, point, name), runup, lines))
    return Series(name, unit, list(states), calls)


def growth():
    """Growth against records, changes and rows; the last points leave room for the eight commits."""
    return [
        series("records", "record", {n: (256, n, n) for n in (0, 128, 256, MOST_RECORDS - KEPT)}),
        series("changes", "change", {n: (256, 64, n) for n in (64, 512, MOST_CHANGES - KEPT)}),
        series("rows", "row", {n: (n, 0, 0) for n in (64, 512, MOST_ROWS)}),
        lookups(),
    ]


def looked_up(records):
    """The lines that make records of four changes each: the first change of all is of row OLDEST, the last of row NEWEST."""
    rows = 256
    filler = [2 + change % (rows - 2) for change in range(LISTED * records)]
    changed = [OLDEST] + filler[1:-1] + [NEWEST]
    runup = [column_line(VALUES, [0] * rows)]
    for record in range(records):
        runup.append(say("begin", FILLER))
        runup += [say("update", FILLER, row, 1) for row in changed[LISTED * record:LISTED * (record + 1)]]
        runup.append(say("commit", FILLER))
    return runup + [say("begin", ASKER)]


def lookups():
    """Reads of the row that the newest record changed, and of the one that only the oldest did.

    They are told without the cost of a read refused by 7, which comes after the same damage check and looks nothing up.
    """
    records = (16, 128, 256, MOST_RECORDS)

    def reads(name, row):
        return [Workload("%s at %d records" % (name, n), looked_up(n), [say("read", ASKER, row)] * 16) for n in records]

    calls = {"newest": reads("newest", NEWEST), "oldest": reads("oldest", OLDEST)}
    return Series("lookups, changes", "change", [LISTED * n for n in records], calls, reads("refused", MOST_ROWS))
