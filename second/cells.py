"""The eleven calls and the picker over lent tables, as lists of numbers: the answer, and every cell afterwards.

`Lent` holds the tables. A call first asks number 1 (room) and number 2 (damage, a function for each sentence of 01's
list), both on the cells as they are. Tables that pass are turned into the model of rules.py, whose refusals and
answers are 01's; then come exactly the stores. A cell that no store names is never touched, so cells past what is in
use, and cells beyond the needed lengths, are kept.

Where the numbers lie (docs/DECISIONS.md): clock C, first row count, stamp, row count, slots in use, changes in use;
slots by column, values from 0, stamps from 96, links from 192 (0 none, else the slot's number plus 1); words 32 a
slot; heads; log by column, stamps from 0, kinds from 512 (1 commit, 2 tidy), row counts from 1,024, ends of changes
from 1,536; changes by column, rows from 0, flip sets from 2,048; a session is live (0 or 1), start, rows, count and
two lists of 32, in which the row 65,535 is an insert and the target 255 is absent.

An answer is a tuple: ("no", N), ("count", n), ("stamp", s, n), ("value", v), ("absent",), ("query", flips, due, place).
A query's place is 0 for the scratch and k + 1 for the words of slot k. A span's rows stand in the list that is lent to it, a
list of 16-bit numbers of any length, and its answer is their count.
"""

from rules import Index
from tables import (ABSENT, COMMIT, MOST_CHANGES, MOST_ENTRIES, MOST_RECORDS, MOST_ROWS, MOST_SLOTS, MOST_VALUES,
                    NO_LINK, SESSIONS, TIDY, WORDS, Change, Insert, Listed, Record, Session, Slot, words)

CLOCK, SLOTS, VECTORS, HEADS, LOG, CHANGES = 6, 3 * MOST_SLOTS, WORDS * MOST_SLOTS, MOST_VALUES, 4 * MOST_RECORDS, 2 * MOST_CHANGES
SLOT_STAMPS, SLOT_LINKS = MOST_SLOTS, 2 * MOST_SLOTS
KINDS, ROW_COUNTS, ENDS = MOST_RECORDS, 2 * MOST_RECORDS, 3 * MOST_RECORDS
SETS = MOST_CHANGES
NEW, GONE = 65535, 255
KIND_CELL = {COMMIT: 1, TIDY: 2}


class Place:
    """The cells of one session."""

    def __init__(self, live=0, start=0, rows=0, count=0, at=None, to=None):
        """A free session unless told otherwise: all its cells are 0."""
        self.live, self.start, self.rows, self.count = live, start, rows, count
        self.at = list(at) if at else [0] * MOST_ENTRIES
        self.to = list(to) if to else [0] * MOST_ENTRIES

    def cells(self):
        """All its cells as one list."""
        return [self.live, self.start, self.rows, self.count, *self.at, *self.to]

    def entries(self):
        """The pairs of row cell and target cell that are in use."""
        return list(zip(self.at, self.to))[:self.count]


class Lent:
    """The lent tables; any lengths, any numbers."""

    def __init__(self, clock, slots, words, heads, log, changes, sessions):
        """The lists themselves are kept, and the calls write into them."""
        self.clock, self.slots, self.words, self.heads = clock, slots, words, heads
        self.log, self.changes, self.sessions = log, changes, sessions

    def copy(self):
        """The same cells once more."""
        return Lent(list(self.clock), list(self.slots), list(self.words), list(self.heads), list(self.log),
                    list(self.changes), [Place(p.live, p.start, p.rows, p.count, p.at, p.to) for p in self.sessions])

    def cells(self):
        """Every cell, by table."""
        return {"clock": self.clock, "slots": self.slots, "words": self.words, "heads": self.heads, "log": self.log,
                "changes": self.changes, "sessions": [cell for place in self.sessions for cell in place.cells()]}


def empty(extra=0):
    """Tables with room, all 0, each with so many cells more."""
    return Lent(*([0] * (limit + extra) for limit in (CLOCK, SLOTS, VECTORS, HEADS, LOG, CHANGES)),
                [Place() for _ in range(SESSIONS + extra)])


# Number 1.


def without_room(t):
    """Whether one of the tables is lent without room for its full limit."""
    return (len(t.clock) < CLOCK or len(t.slots) < SLOTS or len(t.words) < VECTORS or len(t.heads) < HEADS
            or len(t.log) < LOG or len(t.changes) < CHANGES or len(t.sessions) < SESSIONS)


# Number 2: a function for each sentence, on tables with room. A later one is asked only where those before hold.


def counts_hold(t):
    """C is 1 to 32; row count and first row count at most 2,048; stamp at most 512; slots C to 96; changes at most 2,048."""
    C, first, stamp, rows, slots, changes = t.clock[:CLOCK]
    return (1 <= C <= MOST_VALUES and rows <= MOST_ROWS and first <= MOST_ROWS and stamp <= MOST_RECORDS
            and C <= slots <= MOST_SLOTS and changes <= MOST_CHANGES)


def rows_at(t, stamp):
    """The row count at a stamp: the first row count, or that of the record."""
    return t.clock[1] if stamp == 0 else t.log[ROW_COUNTS + stamp - 1]


def end_at(t, stamp):
    """Where the changes of records 1 to the stamp end."""
    return 0 if stamp == 0 else t.log[ENDS + stamp - 1]


def records_hold(t):
    """Record k bears stamp k and one of the two kinds; its changes start where those before ended; the last end at the
    change count; row counts never fall from the first row count on and end at the current one."""
    stamp = t.clock[2]
    for k in range(1, stamp + 1):
        if t.log[k - 1] != k or t.log[KINDS + k - 1] not in KIND_CELL.values():
            return False
        # only the end is stored: a stretch that starts where those before ended cannot end before that
        if end_at(t, k) < end_at(t, k - 1) or rows_at(t, k) < rows_at(t, k - 1):
            return False
    return end_at(t, stamp) == t.clock[5] and rows_at(t, stamp) == t.clock[3]


def changes_hold(t):
    """A change's row is below its record's row count and its set is below C."""
    C = t.clock[0]
    for k in range(1, t.clock[2] + 1):
        for p in range(end_at(t, k - 1), end_at(t, k)):
            if t.changes[p] >= rows_at(t, k) or t.changes[SETS + p] >= 1 << C:
                return False
    return True


def slots_hold(t):
    """Slot i below C has value i, stamp 0, no link; a later slot has a value below C, a stamp at most the current one, and
    links to an earlier slot of the same value with a smaller stamp."""
    C, stamp = t.clock[0], t.clock[2]
    for i in range(t.clock[4]):
        value, made, link = t.slots[i], t.slots[SLOT_STAMPS + i], t.slots[SLOT_LINKS + i]
        if i < C:
            if (value, made, link) != (i, 0, 0):
                return False
        else:
            if value >= C or made > stamp or link == 0 or link - 1 >= i:
                return False
            if t.slots[link - 1] != value or t.slots[SLOT_STAMPS + link - 1] >= made:
                return False
    return True


def heads_hold(t):
    """Head v names a slot of value v."""
    return all(t.heads[v] < t.clock[4] and t.slots[t.heads[v]] == v for v in range(t.clock[0]))


def slot_words(t, i):
    """The 32 words of slot i."""
    return t.words[WORDS * i:WORDS * (i + 1)]


def vector(cells):
    """The set of rows whose bit is 1 in the words."""
    return frozenset(64 * w + b for w, cell in enumerate(cells) if cell for b in range(64) if cell >> b & 1)


def vectors_hold(t):
    """Vector bits at or above the row count at the slot's stamp are 0."""
    return all(row < rows_at(t, t.slots[SLOT_STAMPS + i]) for i in range(t.clock[4]) for row in vector(slot_words(t, i)))


def session_holds(t, place):
    """A session is free and all 0, or open with a start at most the stamp, the row count of that moment, at most 32
    entries, rows below that count and listed once, targets and inserts below C or (targets only) absent."""
    if place.live == 0:
        return not any(place.cells())
    if place.live != 1 or place.start > t.clock[2] or place.rows != rows_at(t, place.start) or place.count > MOST_ENTRIES:
        return False
    listed = [row for row, _ in place.entries() if row != NEW]
    if len(listed) != len(set(listed)) or any(row >= place.rows for row in listed):
        return False
    return all(to < t.clock[0] or (row != NEW and to == GONE) for row, to in place.entries())


def sessions_hold(t):
    """The last sentence, of the 16 places."""
    return all(session_holds(t, place) for place in t.sessions[:SESSIONS])


SENTENCES = (counts_hold, records_hold, changes_hold, slots_hold, heads_hold, vectors_hold, sessions_hold)


def failing(t):
    """The name of the first sentence that fails; None of undamaged tables."""
    for sentence in SENTENCES:
        if not sentence(t):
            return sentence.__name__
    return None


# The model of rules.py that undamaged tables mean.


def model(t):
    """The cells in use as an Index."""
    C, first, stamp, rows, slots, _ = t.clock[:CLOCK]
    index = Index()
    index.C, index.first_rows, index.stamp, index.rows = C, first, stamp, rows
    index.slots = [Slot(t.slots[i], t.slots[SLOT_STAMPS + i], t.slots[SLOT_LINKS + i] - 1 if t.slots[SLOT_LINKS + i] else NO_LINK,
                        vector(slot_words(t, i))) for i in range(slots)]
    index.heads = t.heads[:C]
    kinds = {cell: kind for kind, cell in KIND_CELL.items()}
    index.log = [Record(kinds[t.log[KINDS + k - 1]], rows_at(t, k),
                        [Change(t.changes[p], flip_set(t.changes[SETS + p])) for p in range(end_at(t, k - 1), end_at(t, k))])
                 for k in range(1, stamp + 1)]
    index.sessions = [session_of(place) for place in t.sessions[:SESSIONS]]
    return index


def flip_set(cell):
    """The set of values that a cell of flip sets holds: value v is bit v."""
    return frozenset(v for v in range(MOST_VALUES) if cell >> v & 1)


def set_cell(flips):
    """The cell that holds a flip set."""
    return sum(1 << v for v in flips)


def session_of(place):
    """The session at a place, in the model: None if it is free."""
    if place.live == 0:
        return None
    session = Session(place.start, place.rows)
    session.list = [Insert(to) if row == NEW else Listed(row, ABSENT if to == GONE else to) for row, to in place.entries()]
    return session


# The stores.


def store_entry(place, i, row, to, count):
    """Entry i, and the length of the list."""
    place.at[i], place.to[i], place.count = row, to, count


def store_record(t, record):
    """The model's new record: its cells in the log and its changes; then stamp, row count and changes in use."""
    k, n = t.clock[2], t.clock[5]
    for p, (row, flips) in enumerate(record.changes, n):
        t.changes[p] = row
        t.changes[SETS + p] = set_cell(flips)
    end = n + len(record.changes)
    t.log[k], t.log[KINDS + k], t.log[ROW_COUNTS + k], t.log[ENDS + k] = k + 1, KIND_CELL[record.kind], record.rows, end
    t.clock[2], t.clock[3], t.clock[5] = k + 1, record.rows, end


def store_slot(t, slot):
    """The model's new slot: its cells, its 32 words, the head of its value, and the slots in use."""
    i = t.clock[4]
    t.slots[i], t.slots[SLOT_STAMPS + i], t.slots[SLOT_LINKS + i] = slot.value, slot.stamp, slot.link + 1
    t.words[WORDS * i:WORDS * (i + 1)] = words(slot.vector)
    t.heads[slot.value] = i
    t.clock[4] = i + 1


# The calls. Each changes the tables in place and answers.


def opening(t):
    """Numbers 1 and 2, or None, and the model of tables that are refused by neither."""
    if without_room(t):
        return 1, None
    if failing(t):
        return 2, None
    return None, model(t)


def asked(t, ask):
    """The model after a call of it, and its answer; numbers 1 and 2 come first."""
    number, index = opening(t)
    return index, ("no", number) if number else ask(index)


def create(t, C, column):
    """The column's bytes are values, or 255 for absent."""
    if without_room(t):
        return ("no", 1)
    # a byte neither below C nor 255 is 3: the model takes None for 255, and values as they are
    column = [ABSENT if byte == GONE else byte for byte in column]
    index = Index()
    answer = index.create(C, column)
    if answer[0] == "no":
        return answer
    # "Every unused cell within the needed table lengths becomes 0; cells beyond stay."
    for cells, limit in ((t.clock, CLOCK), (t.slots, SLOTS), (t.words, VECTORS), (t.heads, HEADS), (t.log, LOG), (t.changes, CHANGES)):
        cells[:limit] = [0] * limit
    t.sessions[:SESSIONS] = [Place() for _ in range(SESSIONS)]
    t.clock[:CLOCK] = [C, len(column), 0, len(column), C, 0]
    for i, slot in enumerate(index.slots):
        t.slots[i] = slot.value
        t.words[WORDS * i:WORDS * (i + 1)] = words(slot.vector)
        t.heads[i] = index.heads[i]
    return ("count", answer[1])


def begin(t, session):
    """Answers the start stamp and the start row count."""
    _, answer = asked(t, lambda index: index.begin(session))
    if answer[0] == "no":
        return answer
    place = t.sessions[session]
    if place.live == 0:
        t.sessions[session] = Place(1, t.clock[2], t.clock[3])
    return ("stamp", answer[1], answer[2])


def version_number(index, value, s):
    """The number of the slot that a query of the value at s starts from."""
    i = index.heads[value]
    while index.slots[i].stamp > s:
        i = index.slots[i].link
    return i


def query(t, scratch, session, value, threshold):
    """Answers the flip count, whether a tidy is due, and the place of the words; may fill the scratch's first 32 words."""
    number, index = opening(t)
    if number is None:
        number = index.query_refusal(session, value, len(scratch))
    if number:
        return ("no", number)
    s = t.sessions[session].start
    rows, flips = index.queried(value, s)
    due = 1 if flips > threshold else 0
    if flips == 0:
        return ("query", 0, due, version_number(index, value, s) + 1)
    scratch[:WORDS] = words(rows)
    return ("query", flips, due, 0)


def span(t, row_list, session, first, last):
    """Answers how many rows hold a value of the span; they stand in the list's first cells, and the other cells stay."""
    _, answer = asked(t, lambda index: index.span(session, first, last, len(row_list)))
    if answer[0] == "no":
        return answer
    _, count, *rows = answer
    row_list[:count] = rows
    return ("count", count)


def picked(t_words, scratch, place):
    """The part that the place names: the scratch's first 32 words, or those of one of the 96 slots; empty where there is none."""
    if place > MOST_SLOTS:
        return []
    part = scratch[:WORDS] if place == 0 else t_words[WORDS * (place - 1):WORDS * place]
    return part if len(part) == WORDS else []


def read(t, session, row):
    """Answers the value, or that the row is absent."""
    _, answer = asked(t, lambda index: index.read(session, row))
    if answer[0] == "no":
        return answer
    return ("absent",) if answer[1] is ABSENT else ("value", answer[1])


def listing(t, session, index, answer):
    """Stores the model's list into the session's cells where a call changed it; answers its length."""
    if answer[0] == "no":
        return answer
    place, entries = t.sessions[session], index.sessions[session].list
    for i, entry in enumerate(entries):
        store_entry(place, i, *entry_cells(entry), len(entries))
    return ("count", answer[1])


def update(t, session, row, value):
    """Answers the list's length."""
    return listing(t, session, *asked(t, lambda index: index.update(session, row, value)))


def delete(t, session, row):
    """Answers the list's length."""
    return listing(t, session, *asked(t, lambda index: index.delete(session, row)))


def insert(t, session, value):
    """Answers the list's length."""
    return listing(t, session, *asked(t, lambda index: index.insert(session, value)))


def commit(t, session):
    """Answers stamp and row count after."""
    index, answer = asked(t, lambda index: index.commit(session))
    if answer[0] == "no":
        return answer
    store_record(t, index.log[-1])
    t.sessions[session] = Place()
    return ("stamp", answer[1], answer[2])


def tidy(t, session, value):
    """Answers stamp and number moved."""
    index, answer = asked(t, lambda index: index.tidy(session, value))
    if answer[0] == "no":
        return answer
    store_slot(t, index.slots[-1])
    store_record(t, index.log[-1])
    return ("stamp", answer[1], answer[2])


def abort(t, session):
    """Answers the length of the list dropped."""
    _, answer = asked(t, lambda index: index.abort(session))
    if answer[0] == "no":
        return answer
    t.sessions[session] = Place()
    return ("count", answer[1])


CALLS = {"create": create, "begin": begin, "query": query, "read": read, "update": update, "delete": delete,
         "insert": insert, "commit": commit, "tidy": tidy, "abort": abort, "span": span}


def perform(t, scratch, name, args, row_list=None):
    """Makes the call of that name, a span over a list of no cells where none is lent; a picker answers ("part", words ..)."""
    if name == "picked":
        return ("part", *picked(t.words, scratch, *args))
    if name == "query":
        return query(t, scratch, *args)
    if name == "span":
        return span(t, [] if row_list is None else row_list, *args)
    return CALLS[name](t, *args)


# Tables laid down from a model, for the generators and the tests.


def lay(index):
    """An Index as tables with room; unused cells are 0."""
    t = empty()
    t.clock[:CLOCK] = [index.C, index.first_rows, 0, index.first_rows, 0, 0]
    for i, slot in enumerate(index.slots):
        link = 0 if slot.link is NO_LINK else slot.link + 1
        t.slots[i], t.slots[SLOT_STAMPS + i], t.slots[SLOT_LINKS + i] = slot.value, slot.stamp, link
        t.words[WORDS * i:WORDS * (i + 1)] = words(slot.vector)
    t.clock[4] = len(index.slots)
    t.heads[:index.C] = index.heads
    for record in index.log:
        store_record(t, record)
    t.clock[3] = index.rows
    for place, session in zip(t.sessions, index.sessions):
        if session is not None:
            place.live, place.start, place.rows = 1, session.stamp, session.rows
            for i, entry in enumerate(session.list):
                store_entry(place, i, *entry_cells(entry), len(session.list))
    return t


def entry_cells(entry):
    """The row cell and the target cell of an entry."""
    if isinstance(entry, Insert):
        return NEW, entry.value
    return entry.row, GONE if entry.target is ABSENT else entry.target
