"""Each fault that looks right, as a changed Index, is caught: by a small run, answered by hand, and by replay.

The faults that no run can show are caught on sound tables made by hand.
"""

import os
import sys
import unittest
from random import Random

sys.path.insert(0, os.path.dirname(os.path.abspath(__file__)))

import replay
import runs
from damaged import damaged
from rules import Index
from tables import COMMIT, NO_LINK, TIDY, Change, Record, Session, Slot
from test_second import PRINTED_INPUT, PRINTED_OUTPUT, answers

P8_INPUT = PRINTED_INPUT + ["begin 1", "update 1 0 2", "commit 1", "begin 0", "abort 0", "begin 0", "begin 1",
                            "insert 1 2", "commit 1", "tidy 0 2", "abort 0", "begin 0", "query 0 2"]
P8_OUTPUT = PRINTED_OUTPUT + ["ok 2 4", "ok 1", "ok 3 4", "ok 1 4", "ok 0", "ok 3 4", "ok 3 4", "ok 1",
                              "ok 4 5", "no 14", "ok 0", "ok 4 5", "ok 2 0 3 0 1 4"]


# 01's five faults that look right.


class ChecksMovedRowsOnly(Index):
    """A tidy that checks only its moved rows."""

    def stale(self, value, s):
        moved = self.moved_rows(value, s)
        return any(row in moved for record in self.log[s:] for row, _ in record.changes)


class NewestVersion(Index):
    """Chooses the newest version though its stamp is above the start."""

    def version(self, value, s):
        return self.slots[self.heads[value]]


class OlderChangeCounts(Index):
    """Lets an older change of a row count after a newer one without the value."""

    def flipped(self, value, b, s):
        return {row for record in self.log[b:s] for row, flips in record.changes if value in flips}


class LeavesOutEmptied(Index):
    """Leaves an emptied flip set out of a tidy record."""

    def tidy_changes(self, moved, value, s):
        return [change for change in super().tidy_changes(moved, value, s) if change.flips]


class StopsBeforeS(Index):
    """Stops before record s."""

    def last_sets(self, b, s):
        return super().last_sets(b, s - 1) if s > 0 else {}


# The five that 01's contracts have to reject, as far as an index can be changed to them.


class AlwaysRefuses(Index):
    """Refuses every query."""

    def query(self, session, value, threshold=8, scratch_words=32):
        return ("no", 2)


class ListsNoRows(Index):
    """Lists no rows always."""

    def query(self, session, value, threshold=8, scratch_words=32):
        answer = super().query(session, value, threshold, scratch_words)
        return answer if answer[0] == "no" else (*answer[:3], 0)


class CommitWritesNothing(Index):
    """A commit that says ok and writes nothing but its stamp and row count."""

    def commit(self, session):
        answer = super().commit(session)
        if answer[0] == "ok":
            self.log[-1] = self.log[-1]._replace(changes=[])
        return answer


class TidyOnlyClaims(Index):
    """A tidy that answers and leaves the slot unwritten."""

    def tidy(self, session, value):
        head = self.heads[value] if value < self.C else None
        answer = super().tidy(session, value)
        if answer[0] == "ok":
            self.slots.pop()
            self.heads[value] = head
        return answer


class CountOutOfThinAir(Index):
    """A flip count out of thin air."""

    def query(self, session, value, threshold=8, scratch_words=32):
        answer = super().query(session, value, threshold, scratch_words)
        return answer if answer[0] == "no" else ("ok", answer[1] + 1, *answer[2:])


# What a span could be taken for.


class SpanOpenAtTheRight(Index):
    """A span without its last value."""

    def spanned(self, first, last, s):
        return super().spanned(first, last - 1, s)


class SpanAtNow(Index):
    """A span of the current stamp."""

    def spanned(self, first, last, s):
        return super().spanned(first, last, self.stamp)


class SpanOfVectors(Index):
    """A span of the versions' own words, without the flips."""

    def spanned(self, first, last, s):
        return set().union(*(self.version(value, s).vector for value in range(first, last + 1)))


class SpanByParity(Index):
    """A span in which a row that two values hold is in neither."""

    def spanned(self, first, last, s):
        rows = set()
        for value in range(first, last + 1):
            rows ^= self.queried(value, s)[0]
        return rows


class SpanValueByValue(Index):
    """A span that lists the rows of one value after those of another: not ascending, and twice where two values hold one."""

    def span(self, session, first, last, list_cells=2048):
        number = self.span_refusal(session, first, last, list_cells)
        if number is not None:
            return ("no", number)
        s = self.sessions[session].stamp
        rows = [row for value in range(first, last + 1) for row in sorted(self.queried(value, s)[0])]
        return ("ok", len(rows), *rows)


class SpanShortListFirst(Index):
    """A span that asks for room in the list before the order of its ends."""

    def span_refusal(self, session, first, last, list_cells):
        number = super().span_refusal(session, first, last, list_cells)
        return 21 if number == 20 and list_cells == 0 else number


class SmallRuns(unittest.TestCase):
    """A run of a few lines catches the fault; the answers are written by hand."""

    def caught(self, fault, asked, wanted):
        """Checks that the index gives the answers wanted and the fault doesn't."""
        self.assertEqual(answers(asked, Index()), wanted)
        self.assertNotEqual(answers(asked, fault()), wanted)

    def test_checks_moved_rows_only(self):
        self.caught(ChecksMovedRowsOnly, P8_INPUT, P8_OUTPUT)

    def test_checks_moved_rows_only_would_lose_row_4(self):
        self.assertEqual(answers(P8_INPUT, ChecksMovedRowsOnly())[-1], "ok 0 0 2 0 1")

    def test_newest_version(self):
        asked = PRINTED_INPUT[:9] + ["query 1 3"]
        self.caught(NewestVersion, asked, PRINTED_OUTPUT[:9] + ["ok 0 0 0"])

    def test_older_change_counts(self):
        self.caught(OlderChangeCounts,
                    ["column 3 0", "begin 0", "update 0 0 1", "commit 0", "begin 0", "update 0 0 2", "commit 0",
                     "begin 0", "query 0 0", "query 0 1", "query 0 2"],
                    ["ok 1", "ok 0 1", "ok 1", "ok 1 1", "ok 1 1", "ok 1", "ok 2 1", "ok 2 1",
                     "ok 1 0 0", "ok 0 0 0", "ok 1 0 1 0"])

    def test_leaves_out_emptied(self):
        self.caught(LeavesOutEmptied,
                    ["column 4 1", "begin 0", "update 0 0 3", "commit 0", "begin 0", "tidy 0 1", "abort 0", "begin 0",
                     "tidy 0 3", "abort 0", "begin 0", "update 0 0 2", "commit 0", "begin 0", "query 0 3", "query 0 2"],
                    ["ok 1", "ok 0 1", "ok 1", "ok 1 1", "ok 1 1", "ok 2 1", "ok 0", "ok 2 1",
                     "ok 3 1", "ok 0", "ok 3 1", "ok 1", "ok 4 1", "ok 4 1", "ok 1 0 0", "ok 1 0 1 0"])

    def test_stops_before_s(self):
        self.caught(StopsBeforeS, PRINTED_INPUT, PRINTED_OUTPUT)
        self.assertEqual(answers(PRINTED_INPUT, StopsBeforeS())[7], "ok 0 0 2 0 3")

    def test_spans(self):
        """Sessions 1 and 0 of the printed run; the last on a row that values 0 and 1 hold, which no run makes."""
        two = (2, [(0, 0, NO_LINK, [0, 1]), (1, 0, NO_LINK, [1])], [0, 1], [], [0])
        for fault, tables, asked, wanted in (
                (SpanOpenAtTheRight, None, (1, 1, 2), ("ok", 3, 0, 1, 3)), (SpanAtNow, None, (1, 1, 2), ("ok", 3, 0, 1, 3)),
                (SpanOfVectors, None, (0, 1, 2), ("ok", 2, 1, 3)), (SpanValueByValue, None, (1, 0, 1), ("ok", 3, 0, 2, 3)),
                (SpanShortListFirst, None, (1, 1, 0, 0), ("no", 20)), (SpanByParity, two, (0, 0, 1), ("ok", 2, 0, 1)),
                (SpanValueByValue, two, (0, 0, 1), ("ok", 2, 0, 1)), (SpanByParity, two, (0, 0, 1, 1), ("no", 21))):
            for index in (Index(), fault()):
                if tables is None:
                    answers(PRINTED_INPUT[:7], index)
                else:
                    by_hand(index, *tables)
                with self.subTest(fault=fault.__name__):
                    self.assertEqual(index.span(*asked) == wanted, type(index) is Index, index.span(*asked))

    def test_what_contracts_have_to_reject(self):
        for fault in (AlwaysRefuses, ListsNoRows, CommitWritesNothing, CountOutOfThinAir):
            self.caught(fault, PRINTED_INPUT, PRINTED_OUTPUT)
        asked = PRINTED_INPUT[:9] + ["abort 0", "begin 0", "query 0 3"]
        self.caught(TidyOnlyClaims, asked, PRINTED_OUTPUT[:9] + ["ok 0", "ok 2 4", "ok 0 0 1 0"])


class ByReplay(unittest.TestCase):
    """The replay, which knows no log, version or flip set, contradicts the fault's transcript."""

    def transcript(self, index):
        """A mixed run with the answers of the index."""
        asked = runs.lines_of("mixed", 3000, 3)
        return asked, [answer.encode() for answer in answers([line.decode() for line in asked], index)]

    def test_the_index_agrees(self):
        replay.check_transcript(*self.transcript(Index()))

    def test_faults(self):
        for fault in (ChecksMovedRowsOnly, NewestVersion, OlderChangeCounts, LeavesOutEmptied, StopsBeforeS,
                      ListsNoRows, CommitWritesNothing, TidyOnlyClaims, CountOutOfThinAir):
            with self.subTest(fault.__name__), self.assertRaises(replay.Wrong):
                replay.check_transcript(*self.transcript(fault()))

    def test_spans(self):
        """A run with spans between its lines: the index agrees, each fault that a run can show does not."""
        replay.check_transcript(*runs.with_spans("mixed", 1500, 3, Index()))
        for fault in (SpanOpenAtTheRight, SpanAtNow, SpanOfVectors, SpanValueByValue):
            with self.subTest(fault.__name__), self.assertRaises(replay.Wrong):
                replay.check_transcript(*runs.with_spans("mixed", 1500, 3, fault()))

    def test_each_answer_of_the_printed_run_matters(self):
        asked = [line.encode() for line in PRINTED_INPUT]
        given = [answer.encode() for answer in PRINTED_OUTPUT]
        replay.check_transcript(asked, given)
        for place, answer in enumerate(given):
            for other in (b"ok 7", b"ok 7 7", answer + b" 7", b"", b"okay"):
                with self.subTest(line=asked[place], answer=other), self.assertRaises(replay.Wrong):
                    replay.check_transcript(asked, given[:place] + [other] + given[place + 1:])

    def test_refusals_by_12_13_and_14_are_exact(self):
        asked = [line.encode() for line in P8_INPUT]
        given = [answer.encode() for answer in P8_OUTPUT]
        for place, other in ((4, b"no 12"), (8, b"no 13"), (8, b"no 14"), (11, b"no 17"), (22, b"no 13"), (22,
                                                                                                           b"no 16")):
            with self.subTest(line=asked[place], answer=other), self.assertRaises(replay.Wrong):
                replay.check_transcript(asked, given[:place] + [other] + given[place + 1:])


# Faults that no run shows, since a run's tables are all of one make.


class OverRecordsFromB(Index):
    """A query over records b to s."""

    def queried(self, value, s):
        version = self.version(value, s)
        flipped = self.flipped(value, max(version.stamp - 1, 0), s)
        return version.vector ^ flipped, len(flipped)


class OverAllRecords(Index):
    """A query over records 1 to s."""

    def queried(self, value, s):
        flipped = self.flipped(value, 0, s)
        return self.version(value, s).vector ^ flipped, len(flipped)


class NoHeadTest(Index):
    """Staleness without the test of the head's stamp."""

    def stale(self, value, s):
        moved = self.moved_rows(value, s)
        return any(row in moved or value in flips for record in self.log[s:] for row, flips in record.changes)


class MovedRowsInCommitsOnly(Index):
    """Staleness whose test of moved rows looks at commits only."""

    def stale(self, value, s):
        moved = self.moved_rows(value, s)
        return (self.slots[self.heads[value]].stamp > s
                or any(row in moved and record.kind == COMMIT or value in flips
                       for record in self.log[s:] for row, flips in record.changes))


class ReadsTheLargest(Index):
    """A read that takes the largest value."""

    def read_at(self, row, s):
        holding = [value for value in range(self.C) if row in self.queried(value, s)[0]]
        return holding[-1] if holding else None


def by_hand(index, rows, slots, heads, records, starts):
    """Fills an index with tables made by hand: records are (kind, {row: flip set}), sessions open at the starts."""
    index.C = len(heads)
    index.first_rows = index.rows = rows
    index.slots = [Slot(value, stamp, link, frozenset(vector)) for value, stamp, link, vector in slots]
    index.heads = heads
    index.log = [Record(kind, rows, [Change(row, frozenset(flips)) for row, flips in changes.items()])
                 for kind, changes in records]
    index.stamp = len(records)
    for session, start in enumerate(starts):
        index.sessions[session] = Session(start, rows)
    return index


class HandMadeTables(unittest.TestCase):
    """01 speaks of all sound tables; the answers are written by hand."""

    def caught(self, fault, call, wanted, *tables):
        """Checks, on sound tables, that the index gives the answer wanted and the fault doesn't."""
        self.assertFalse(damaged(by_hand(Index(), *tables)))
        self.assertEqual(call(by_hand(Index(), *tables)), wanted)
        if fault is not None:
            self.assertNotEqual(call(by_hand(fault(), *tables)), wanted)

    def test_a_record_at_b_does_not_flip(self):
        tables = (1, [(0, 0, NO_LINK, []), (0, 1, 0, [0])], [1], [(COMMIT, {0: {0}})], [1])
        self.caught(OverRecordsFromB, lambda index: index.query(0, 0), ("ok", 0, 0, 1, 0), *tables)
        self.caught(None, lambda index: index.read(0, 0), ("ok", 0), *tables)

    def test_a_record_before_b_does_not_flip(self):
        tables = (1, [(0, 0, NO_LINK, []), (0, 2, 0, [0])], [1], [(COMMIT, {0: {0}}), (COMMIT, {})], [2])
        self.caught(OverAllRecords, lambda index: index.query(0, 0), ("ok", 0, 0, 1, 0), *tables)
        self.caught(None, lambda index: index.read(0, 0), ("ok", 0), *tables)

    def test_a_head_above_the_start_is_stale(self):
        tables = (1, [(0, 0, NO_LINK, []), (0, 2, 0, [0])], [1], [(COMMIT, {0: {0}}), (TIDY, {})], [1])
        self.caught(NoHeadTest, lambda index: index.tidy(0, 0), ("no", 14), *tables)

    def test_a_tidy_that_names_a_moved_row_is_stale(self):
        tables = (1, [(0, 0, NO_LINK, []), (1, 0, NO_LINK, [])], [0, 1], [(COMMIT, {0: {0}}), (TIDY, {0: {1}})], [1])
        self.caught(MovedRowsInCommitsOnly, lambda index: index.tidy(0, 0), ("no", 14), *tables)

    def test_read_takes_the_smallest_of_two_values(self):
        tables = (1, [(0, 0, NO_LINK, [0]), (1, 0, NO_LINK, [0])], [0, 1], [], [0])
        self.caught(ReadsTheLargest, lambda index: index.read(0, 0), ("ok", 0), *tables)

    def test_a_head_need_not_be_the_newest_slot(self):
        tables = (1, [(0, 0, NO_LINK, []), (0, 1, 0, [0])], [0], [(TIDY, {})], [1])
        self.caught(None, lambda index: index.query(0, 0), ("ok", 0, 0, 0), *tables)

    def test_a_row_twice_in_one_record(self):
        index = by_hand(Index(), 1, [(0, 0, NO_LINK, [0])], [0], [(COMMIT, {})], [1, 1])
        index.log[0] = Record(COMMIT, 1, [Change(0, frozenset()), Change(0, frozenset([0]))])
        self.assertFalse(damaged(index))
        self.assertEqual((index.query(0, 0), index.read(0, 0)), (("ok", 1, 0, 0), ("ok", None)))
        index.log[0] = Record(COMMIT, 1, [Change(0, frozenset([0])), Change(0, frozenset())])
        self.assertEqual((index.query(0, 0), index.read(0, 0)), (("ok", 0, 0, 1, 0), ("ok", 0)))

    def test_read_is_the_smallest_value_whose_query_has_the_bit(self):
        random = Random(1)
        for _ in range(500):
            index = any_sound_tables(random)
            self.assertFalse(damaged(index))
            for row in range(index.sessions[0].rows):
                holding = [value for value in range(index.C) if row in index.query(0, value)[4:]]
                self.assertEqual(index.read(0, row), ("ok", min(holding, default=None)))


def some(random, count):
    """A random set of numbers below the count."""
    return [number for number in range(count) if random.random() < 0.4]


def any_sound_tables(random):
    """Small sound tables with nothing else in common with a run's; session 0 is open."""
    C, rows = random.randint(1, 3), random.randint(1, 3)
    records = [(random.choice((COMMIT, TIDY)), {row: some(random, C) for row in some(random, rows)})
               for _ in range(random.randint(0, 5))]
    slots = [(value, 0, NO_LINK, some(random, rows)) for value in range(C)]
    for link in range(random.randint(0, 4)):
        value, stamp = slots[link % len(slots)][:2]
        if stamp < len(records):
            slots.append((value, random.randint(stamp + 1, len(records)), link % len(slots), some(random, rows)))
    heads = [random.choice([place for place, slot in enumerate(slots) if slot[0] == value]) for value in range(C)]
    return by_hand(Index(), rows, slots, heads, records, [random.randint(0, len(records))])


if __name__ == "__main__":
    unittest.main()
