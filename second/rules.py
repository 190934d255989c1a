"""Document 01, "Full scope and exact rules", as plain Python, with the requests of document 02 that have landed: what the
proved program is compared with.

`Index` has 01's ten calls and 02's span. A call reads like its paragraph, in that order, with the sentences it renders
above the lines that render them. A refusal function asks its numbers in ascending order, so the first that applies is
the smallest; where 02 states a place, the number is asked there. An answer is a tuple: ("ok", numbers ..) or ("no", N).

A free session is None, and record k stands in the log at place k - 1. Number 1 is never given, for nothing is lent.
Number 2 is given before the first accepted create only: the tables are all 0 then, and no call damages sound ones
(damaged.py has the whole section; the tests hold every state of a run against it).
"""

from tables import (ABSENT, COMMIT, MOST_CHANGES, MOST_ENTRIES, MOST_RECORDS, MOST_ROWS, MOST_SLOTS, MOST_VALUES,
                    NO_LINK, SESSIONS, THRESHOLD, TIDY, WORDS, Change, Insert, Record, Session, Slot)


class Index:
    """The tables and the calls."""

    def __init__(self):
        """Before any accepted column the tables are all 0."""
        self.C = 0
        self.first_rows = 0
        self.stamp = 0
        self.rows = 0
        self.slots = []
        self.heads = []
        self.log = []
        self.sessions = [None] * SESSIONS

    # What the paragraphs on the calls share.

    def version(self, value, s):
        """From the head of the value, along the links to the version before, the first whose stamp is at most s."""
        slot = self.slots[self.heads[value]]
        while slot.stamp > s:
            slot = self.slots[slot.link]
        return slot

    def last_sets(self, b, s):
        """For each row that records b+1 to s name, the flip set of the last change naming it."""
        last = {}
        for record in self.log[b:s]:
            for row, flips in record.changes:
                last[row] = flips
        return last

    def flipped(self, value, b, s):
        """The rows whose last change in records b+1 to s has the value in its set."""
        return {row for row, flips in self.last_sets(b, s).items() if value in flips}

    def queried(self, value, s):
        """The vector of the value at s, and the flip count."""
        version = self.version(value, s)
        flipped = self.flipped(value, version.stamp, s)
        return version.vector ^ flipped, len(flipped)

    def spanned(self, first, last, s):
        """The rows of any value of the span, both ends in, at s: the union of the vectors of its values."""
        rows = set()
        for value in range(first, last + 1):
            rows |= self.queried(value, s)[0]
        return rows

    def last_change(self, row, s):
        """The record number and flip set of the last change naming the row in records 1 to s; 0 and empty if none."""
        for k in range(s, 0, -1):
            for changed, flips in reversed(self.log[k - 1].changes):
                if changed == row:
                    return k, flips
        return 0, frozenset()

    def flip_set(self, row, s):
        """The flip set of the row at stamp s."""
        return self.last_change(row, s)[1]

    def read_at(self, row, s):
        """The smallest value whose query at s has the row's bit; absent if none."""
        k, flips = self.last_change(row, s)
        for value in range(self.C):
            version = self.version(value, s)
            # The row's last change in records b+1 to s is its last in records 1 to s, if that is not before b+1.
            flipped = k > version.stamp and value in flips
            if (row in version.vector) != flipped:
                return value
        return ABSENT

    def standing_value(self, session, row):
        """The row's listed target if any, otherwise its read."""
        place = session.place(row)
        if place is not None:
            return session.list[place].target
        return self.read_at(row, session.stamp)

    def change_count(self):
        """The number of changes in all."""
        return sum(len(record.changes) for record in self.log)

    def conflict(self, session):
        """Whether some record with a stamp above the start, of either kind, names a listed row."""
        listed = {entry.row for entry in session.listed_rows()}
        for record in self.log[session.stamp:]:
            for row, _ in record.changes:
                if row in listed:
                    return True
        return False

    def moved_rows(self, value, s):
        """The rows, ascending, whose flip set at s has the value."""
        return sorted(self.flipped(value, 0, s))

    def stale(self, value, s):
        """Whether a tidy of the value from start s is stale."""
        moved = set(self.moved_rows(value, s))
        # "if the head of v has a stamp above s,"
        if self.slots[self.heads[value]].stamp > s:
            return True
        for record in self.log[s:]:
            for row, flips in record.changes:
                # "or some record above s names a moved row, or some record above s has a change whose set has v"
                if row in moved or value in flips:
                    return True
        return False

    # The tests of the refusal numbers that are asked by several calls.

    def damaged(self):
        """Number 2, of the tables that calls leave: C is 1 to 32, or no create was accepted yet."""
        return self.C == 0

    def not_open(self, session):
        """Number 5."""
        return self.sessions[session] is None

    def no_such_row(self, session, row):
        """Number 7."""
        return row >= self.sessions[session].rows

    def stands_absent(self, session, row):
        """Number 8."""
        return self.standing_value(self.sessions[session], row) is ABSENT

    # The calls, each after its refusals.

    def create_refusal(self, C, column):
        """The number that refuses a create, or None."""
        if C == 0 or C > MOST_VALUES:
            return 3
        if len(column) > MOST_ROWS:
            return 3
        if any(value is not ABSENT and value >= C for value in column):
            return 3
        return None

    def create(self, C, column):
        """Makes the index of a column anew; answers the row count."""
        number = self.create_refusal(C, column)
        if number is not None:
            return ("no", number)
        # "It makes slots 0 to C-1 with stamp 0, one per value, no links; stamp 0; all sessions free."
        self.C = C
        self.first_rows = len(column)
        self.stamp = 0
        self.rows = len(column)
        self.slots = []
        for value in range(C):
            vector = frozenset(row for row, held in enumerate(column) if held == value)
            self.slots.append(Slot(value, 0, NO_LINK, vector))
        self.heads = list(range(C))
        self.log = []
        self.sessions = [None] * SESSIONS
        # "Answer: row count."
        return ("ok", self.rows)

    def begin_refusal(self, session):
        """The number that refuses a begin, or None."""
        if self.damaged():
            return 2
        if session >= SESSIONS:
            return 4
        return None

    def begin(self, session):
        """Opens a session, unless it is open; answers its start stamp and start row count."""
        number = self.begin_refusal(session)
        if number is not None:
            return ("no", number)
        # "Begin opens a free session with the current stamp and row count."
        if self.not_open(session):
            self.sessions[session] = Session(self.stamp, self.rows)
        # "On an open session it answers the start it already has and changes nothing."
        opened = self.sessions[session]
        return ("ok", opened.stamp, opened.rows)

    def query_refusal(self, session, value, scratch_words):
        """The number that refuses a query, or None."""
        if self.damaged():
            return 2
        if session >= SESSIONS:
            return 4
        if self.not_open(session):
            return 5
        if value >= self.C:
            return 6
        if scratch_words < WORDS:
            return 10
        return None

    def query(self, session, value, threshold=THRESHOLD, scratch_words=WORDS):
        """Answers the flip count, whether a tidy is due (1 or 0), the number of rows and the rows ascending."""
        number = self.query_refusal(session, value, scratch_words)
        if number is not None:
            return ("no", number)
        vector, count = self.queried(value, self.sessions[session].stamp)
        # "whether a tidy is due: count greater than the threshold, 8 unless the caller passes another"
        due = 1 if count > threshold else 0
        return ("ok", count, due, len(vector), *sorted(vector))

    def span_refusal(self, session, first, last, list_cells):
        """The number that refuses a span, or None."""
        if self.damaged():
            return 2
        if session >= SESSIONS:
            return 4
        if self.not_open(session):
            return 5
        # "6 for either end;"
        if first >= self.C or last >= self.C:
            return 6
        # "20, first value above the last, straight after 6;"
        if first > last:
            return 20
        # "21, list shorter than the answer, last."
        if list_cells < len(self.spanned(first, last, self.sessions[session].stamp)):
            return 21
        return None

    def span(self, session, first, last, list_cells=MOST_ROWS):
        """Answers the number of rows that hold a value of the span, and these rows, ascending and once each, which are
        what the lent list's first cells get. It takes no scratch and gives no flip count."""
        number = self.span_refusal(session, first, last, list_cells)
        if number is not None:
            return ("no", number)
        rows = self.spanned(first, last, self.sessions[session].stamp)
        return ("ok", len(rows), *sorted(rows))

    def read_refusal(self, session, row):
        """The number that refuses a read, or None."""
        if self.damaged():
            return 2
        if session >= SESSIONS:
            return 4
        if self.not_open(session):
            return 5
        if self.no_such_row(session, row):
            return 7
        return None

    def read(self, session, row):
        """Answers the row's value or absent; ignores the session's own list."""
        number = self.read_refusal(session, row)
        if number is not None:
            return ("no", number)
        return ("ok", self.read_at(row, self.sessions[session].stamp))

    def update_refusal(self, session, row, value):
        """The number that refuses an update, or None."""
        if self.damaged():
            return 2
        if session >= SESSIONS:
            return 4
        if self.not_open(session):
            return 5
        if value >= self.C:
            return 6
        if self.no_such_row(session, row):
            return 7
        if self.stands_absent(session, row):
            return 8
        if self.sessions[session].full(row):
            return 9
        return None

    def update(self, session, row, value):
        """Lists the row with the value as its target; answers the list's length."""
        number = self.update_refusal(session, row, value)
        if number is not None:
            return ("no", number)
        opened = self.sessions[session]
        opened.change(row, value)
        return ("ok", len(opened.list))

    def delete_refusal(self, session, row):
        """The number that refuses a delete, or None."""
        if self.damaged():
            return 2
        if session >= SESSIONS:
            return 4
        if self.not_open(session):
            return 5
        if self.no_such_row(session, row):
            return 7
        if self.stands_absent(session, row):
            return 8
        if self.sessions[session].full(row):
            return 9
        return None

    def delete(self, session, row):
        """Lists the row with absent as its target; answers the list's length."""
        number = self.delete_refusal(session, row)
        if number is not None:
            return ("no", number)
        opened = self.sessions[session]
        opened.change(row, ABSENT)
        return ("ok", len(opened.list))

    def insert_refusal(self, session, value):
        """The number that refuses an insert, or None."""
        if self.damaged():
            return 2
        if session >= SESSIONS:
            return 4
        if self.not_open(session):
            return 5
        if value >= self.C:
            return 6
        if len(self.sessions[session].list) == MOST_ENTRIES:
            return 9
        return None

    def insert(self, session, value):
        """Lists an insert of the value; answers the list's length."""
        number = self.insert_refusal(session, value)
        if number is not None:
            return ("no", number)
        opened = self.sessions[session]
        opened.list.append(Insert(value))
        return ("ok", len(opened.list))

    def commit_refusal(self, session):
        """The number that refuses a commit, or None."""
        if self.damaged():
            return 2
        if session >= SESSIONS:
            return 4
        if self.not_open(session):
            return 5
        opened = self.sessions[session]
        if not opened.list:
            return 11
        if self.conflict(opened):
            return 12
        if self.rows + len(opened.inserts()) > MOST_ROWS:
            return 15
        if len(self.log) == MOST_RECORDS:
            return 16
        if self.change_count() + len(opened.list) > MOST_CHANGES:
            return 17
        return None

    def commit(self, session):
        """Writes the list as one commit record and frees the session; answers stamp and row count after."""
        number = self.commit_refusal(session)
        if number is not None:
            return ("no", number)
        opened = self.sessions[session]
        changes = []
        # "Changes go in list order, listed rows first, inserts after."
        for row, target in opened.listed_rows():
            changes.append(Change(row, self.new_set(row, opened.stamp, target)))
        # "An insert gets the next row number and the set {value}."
        rows = self.rows
        for entry in opened.inserts():
            changes.append(Change(rows, frozenset([entry.value])))
            rows += 1
        # "The new record's stamp is the old stamp plus 1. The session becomes free."
        self.log.append(Record(COMMIT, rows, changes))
        self.stamp += 1
        self.rows = rows
        self.sessions[session] = None
        return ("ok", self.stamp, self.rows)

    def new_set(self, row, s, target):
        """The flip set at s with the read at the start toggled (if present), then the target toggled (if present)."""
        flips = self.flip_set(row, s)
        for value in (self.read_at(row, s), target):
            if value is not ABSENT:
                flips = flips ^ {value}
        return flips

    def tidy_refusal(self, session, value):
        """The number that refuses a tidy, or None."""
        if self.damaged():
            return 2
        if session >= SESSIONS:
            return 4
        if self.not_open(session):
            return 5
        if value >= self.C:
            return 6
        s = self.sessions[session].stamp
        moved = self.moved_rows(value, s)
        if not moved:
            return 13
        if self.stale(value, s):
            return 14
        if len(self.log) == MOST_RECORDS:
            return 16
        if self.change_count() + len(moved) > MOST_CHANGES:
            return 17
        if len(self.slots) == MOST_SLOTS:
            return 18
        return None

    def tidy(self, session, value):
        """Folds the value's moved rows into a slot of its own; answers stamp and number moved."""
        number = self.tidy_refusal(session, value)
        if number is not None:
            return ("no", number)
        s = self.sessions[session].stamp
        moved = self.moved_rows(value, s)
        # "a new slot for v holds the vector queried at s, linked to the old head, with stamp now plus 1;
        # the head moves;"
        vector, _ = self.queried(value, s)
        self.slots.append(Slot(value, self.stamp + 1, self.heads[value], vector))
        self.heads[value] = len(self.slots) - 1
        # "a tidy record of that stamp lists the moved rows in ascending order with their flip sets at s less v."
        self.log.append(Record(TIDY, self.rows, self.tidy_changes(moved, value, s)))
        self.stamp += 1
        # "The session stays open. Answer: stamp and number moved."
        return ("ok", self.stamp, len(moved))

    def tidy_changes(self, moved, value, s):
        """The moved rows with their flip sets at s less the value."""
        sets = self.last_sets(0, s)
        return [Change(row, sets[row] - {value}) for row in moved]

    def abort_refusal(self, session):
        """The number that refuses an abort, or None."""
        if self.damaged():
            return 2
        if session >= SESSIONS:
            return 4
        if self.not_open(session):
            return 5
        return None

    def abort(self, session):
        """Frees the session; answers the length of the list dropped."""
        number = self.abort_refusal(session)
        if number is not None:
            return ("no", number)
        dropped = len(self.sessions[session].list)
        self.sessions[session] = None
        return ("ok", dropped)
