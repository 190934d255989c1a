"""01's section "Damaged tables", on the tables of rules.Index.

Some of its sentences hold here by the shape of the tables: a record's stamp is its place in the log, its changes are
its own list, and a free session is None. The tests hold every state of a run, and the tables they make by hand,
against what is left.
"""

from tables import (ABSENT, COMMIT, MOST_CHANGES, MOST_ENTRIES, MOST_RECORDS, MOST_ROWS, MOST_SLOTS, MOST_VALUES,
                    NO_LINK, TIDY, Listed)


def damaged(index):
    """Whether one of the section's demands fails."""
    return not (sound_counts(index) and sound_log(index) and sound_slots(index)
                and all(session is None or sound_session(index, session) for session in index.sessions))


def sound_counts(index):
    """C is 1 to 32; row counts at most 2,048; stamp at most 512; slots C to 96; changes at most 2,048."""
    return (1 <= index.C <= MOST_VALUES and index.rows <= MOST_ROWS and index.first_rows <= MOST_ROWS
            and index.stamp == len(index.log) <= MOST_RECORDS and index.C <= len(index.slots) <= MOST_SLOTS
            and index.change_count() <= MOST_CHANGES)


def rows_at(index, stamp):
    """The row count at a stamp."""
    return index.first_rows if stamp == 0 else index.log[stamp - 1].rows


def sound_log(index):
    """Kinds are two; row counts never fall and end at the current one; rows and sets are within range."""
    for k, record in enumerate(index.log, 1):
        if record.kind not in (COMMIT, TIDY) or record.rows < rows_at(index, k - 1):
            return False
        for row, flips in record.changes:
            if row >= record.rows or any(value >= index.C for value in flips):
                return False
    return rows_at(index, index.stamp) == index.rows


def sound_slots(index):
    """The first C slots, the later ones with their links, the heads, and no bit at or above the row count."""
    for i, slot in enumerate(index.slots):
        if slot.value >= index.C or slot.stamp > index.stamp:
            return False
        if i < index.C and (slot.value, slot.stamp, slot.link) != (i, 0, NO_LINK):
            return False
        if i >= index.C and not sound_link(index, i):
            return False
        if any(row >= rows_at(index, slot.stamp) for row in slot.vector):
            return False
    return all(index.slots[index.heads[value]].value == value for value in range(index.C))


def sound_link(index, i):
    """A later slot links to an earlier slot of the same value with a smaller stamp."""
    slot = index.slots[i]
    if slot.link is NO_LINK or slot.link >= i:
        return False
    before = index.slots[slot.link]
    return before.value == slot.value and before.stamp < slot.stamp


def sound_session(index, session):
    """A start at most the stamp, the row count of that moment, at most 32 entries, rows listed once, values below C."""
    if session.stamp > index.stamp or session.rows != rows_at(index, session.stamp):
        return False
    rows = [entry.row for entry in session.listed_rows()]
    values = [entry.target if isinstance(entry, Listed) else entry.value for entry in session.list]
    return (len(session.list) <= MOST_ENTRIES and len(rows) == len(set(rows))
            and all(row < session.rows for row in rows)
            and all(entry.value is not ABSENT for entry in session.inserts())
            and all(value is ABSENT or value < index.C for value in values))
