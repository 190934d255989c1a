"""01's section "What the index holds": the limits, and the shapes of a slot, a record, a change, an entry, a session.

Absent is None; a vector is the set of rows whose bit is 1; a flip set is a set of values.
"""

from collections import namedtuple

MOST_VALUES = 32
MOST_ROWS = 2048
MOST_SLOTS = 96
MOST_RECORDS = 512
MOST_CHANGES = 2048
MOST_ENTRIES = 32
SESSIONS = 16
WORDS = 32
THRESHOLD = 8

ABSENT = None
NO_LINK = None
COMMIT, TIDY = "commit", "tidy"

# "at most 96 slots, each a value, a stamp, a link and a vector"
Slot = namedtuple("Slot", "value stamp link vector")
# "Record k has stamp k, a kind (commit or tidy), the row count after it and its changes."
Record = namedtuple("Record", "kind rows changes")
# "a change is a row and a flip set (a set of values)"
Change = namedtuple("Change", "row flips")
# "a row with its target (value or absent), or an insert with its value"
Listed = namedtuple("Listed", "row target")
Insert = namedtuple("Insert", "value")


class Session:
    """An open session: a start stamp, a start row count and a list."""

    def __init__(self, stamp, rows):
        """Opens it with the current stamp and row count, and nothing listed."""
        self.stamp = stamp
        self.rows = rows
        self.list = []

    def listed_rows(self):
        """The entries that name a row, in list order."""
        return [entry for entry in self.list if isinstance(entry, Listed)]

    def inserts(self):
        """The entries that are inserts, in list order."""
        return [entry for entry in self.list if isinstance(entry, Insert)]

    def place(self, row):
        """The place in the list of the entry naming the row; None if none does."""
        for place, entry in enumerate(self.list):
            if isinstance(entry, Listed) and entry.row == row:
                return place
        return None

    def full(self, row):
        """Whether the list has 32 entries and a change of the row needs a new one."""
        return len(self.list) == MOST_ENTRIES and self.place(row) is None

    def change(self, row, target):
        """Lists the row with its target; a second change of a row replaces the entry where it stands."""
        place = self.place(row)
        if place is None:
            self.list.append(Listed(row, target))
        else:
            self.list[place] = Listed(row, target)


def words(vector):
    """The vector's 32 words of 64 bits: row r is bit r mod 64 (bit 0 lowest) of word r div 64."""
    answer = [0] * WORDS
    for row in vector:
        answer[row // 64] |= 1 << (row % 64)
    return answer
