"""01's printed run and its marked examples, the refusal numbers, and the decisions on what 01 leaves open.

Expected answers are written by hand from 01. Run as a program, it runs the other test files too.

    python3 second/test_second.py
"""

import io
import os
import sys
import unittest

HERE = os.path.dirname(os.path.abspath(__file__))
sys.path.insert(0, HERE)

import lines
import steps
from rules import Index
from tables import COMMIT, TIDY, words

PRINTED_INPUT = ["column 4 1 2 0 1", "begin 0", "begin 1", "update 0 0 3", "commit 0", "query 1 1", "begin 0",
                 "query 0 1", "tidy 0 3", "query 0 3", "update 1 0 2", "commit 1", "abort 1"]
PRINTED_OUTPUT = ["ok 4", "ok 0 4", "ok 0 4", "ok 1", "ok 1 4", "ok 0 0 2 0 3", "ok 1 4", "ok 1 0 1 3",
                  "ok 2 1", "ok 1 0 1 0", "ok 1", "no 12", "ok 1"]


def answers(asked, index):
    """The answers of the step program over an index to lines of text."""
    data = "".join(line + "\n" for line in asked).encode()
    return [answer.decode() for answer in steps.answers(io.BytesIO(data), index)]


class Run(unittest.TestCase):
    """A test that speaks lines to an index."""

    def setUp(self):
        self.index = Index()

    def say(self, *pairs):
        """Checks lines with their answers, written `line: answer`."""
        for pair in pairs:
            line, answer = pair.split(": ")
            self.assertEqual(answers([line], self.index), [answer], pair)

    def changes(self, k):
        """The changes of record k as plain pairs."""
        return [(row, set(flips)) for row, flips in self.index.log[k - 1].changes]


class MarkedExamples(Run):
    """P1 to P10."""

    def setUp(self):
        super().setUp()
        self.printed = answers(PRINTED_INPUT, self.index)

    def test_printed_run(self):
        self.assertEqual(self.printed, PRINTED_OUTPUT)

    def test_p1_record_1(self):
        self.assertEqual((self.index.log[0].kind, self.changes(1)), (COMMIT, [(0, {1, 3})]))

    def test_p2_record_2(self):
        self.assertEqual((self.index.log[1].kind, self.changes(2)), (TIDY, [(0, {1})]))

    def test_p3_new_slot_of_value_3(self):
        slot = self.index.slots[self.index.heads[3]]
        self.assertEqual((slot.value, slot.stamp, slot.link, set(slot.vector)), (3, 2, 3, {0}))

    def test_p4_session_1_after_commit_1(self):
        fresh = Index()
        answers(PRINTED_INPUT[:5], fresh)
        self.assertEqual(fresh.query(1, 1), ("ok", 0, 0, 2, 0, 3))

    def test_p5_its_commit_conflicts(self):
        self.assertEqual(self.printed[11], "no 12")

    def test_p6_to_p8(self):
        self.say("begin 1: ok 2 4", "update 1 0 2: ok 1", "commit 1: ok 3 4")
        self.assertEqual(self.changes(3), [(0, {1, 2, 3})])
        self.say("begin 0: ok 1 4")
        self.say("abort 0: ok 0", "begin 0: ok 3 4", "begin 1: ok 3 4", "insert 1 2: ok 1", "commit 1: ok 4 5")
        self.assertEqual(self.changes(4), [(4, {2})])
        self.say("tidy 0 2: no 14")

    def test_p9_no_rows(self):
        self.say("column 1: ok 0", "begin 0: ok 0 0", "query 0 0: ok 0 0 0")

    def test_p10_last_row(self):
        self.say("column 1" + " -" * 2047 + " 0: ok 2048")
        self.assertEqual(words(self.index.slots[0].vector), [0] * 31 + [1 << 63])


class RunOnlyExamples(Run):
    """The examples that 01 marks as run only."""

    def test_32_values_accepted_33_refused(self):
        self.say("column 32 31 0: ok 2", "column 33 31 0: no 3")

    def test_32nd_entry_accepted_33rd_refused(self):
        self.say("column 2" + " 0" * 40 + ": ok 40", "begin 0: ok 0 40")
        for row in range(32):
            self.say("update 0 %d 1: ok %d" % (row, row + 1))
        self.say("update 0 32 1: no 9", "delete 0 32: no 9", "insert 0 1: no 9")

    def test_32nd_insert_accepted_33rd_refused(self):
        self.say("column 2: ok 0", "begin 0: ok 0 0")
        for length in range(1, 33):
            self.say("insert 0 1: ok %d" % length)
        self.say("insert 0 1: no 9", "commit 0: ok 1 32")

    def test_2048_rows_accepted_2049_refused(self):
        self.say("column 1" + " 0" * 2048 + ": ok 2048", "column 1" + " 0" * 2049 + ": no 3")

    def test_repeated_change_at_a_full_list_accepted(self):
        self.say("column 2" + " 0" * 40 + ": ok 40", "begin 0: ok 0 40")
        for row in range(32):
            self.say("update 0 %d 1: ok %d" % (row, row + 1))
        self.say("update 0 5 0: ok 32", "delete 0 6: ok 32", "update 0 33 0: no 9")


class RefusalNumbers(Run):
    """Each number of the table, and that the smallest that applies is given."""

    def test_2_before_any_accepted_column(self):
        self.say("begin 0: no 2", "begin 9999: no 2", "query 0 0: no 2", "read 0 0: no 2", "update 0 0 0: no 2")
        self.say("delete 0 0: no 2", "insert 0 0: no 2", "commit 0: no 2", "tidy 0 0: no 2", "abort 16: no 2")
        self.say("column 0: no 3", "begin 0: no 2", "column 1: ok 0", "begin 0: ok 0 0")

    def test_3_and_a_refused_column_leaves_everything_as_it_was(self):
        self.say("column 3 2 1: ok 2", "begin 4: ok 0 2", "insert 4 0: ok 1")
        self.say("column 0: no 3", "column 254: no 3", "column 3 3: no 3", "column 3 0 254: no 3")
        self.say("begin 4: ok 0 2", "query 4 2: ok 0 0 1 0", "abort 4: ok 1")

    def test_a_second_column_starts_over(self):
        self.say("column 3 2 1: ok 2", "begin 4: ok 0 2", "insert 4 0: ok 1", "commit 4: ok 1 3", "begin 5: ok 1 3")
        self.say("column 2 - 0 1: ok 3", "begin 6: ok 0 3", "abort 5: no 5", "tidy 6 0: no 13", "query 6 2: no 6")

    def test_4_5_6_7_in_order(self):
        self.say("column 2 0: ok 1", "query 16 9: no 4", "query 15 9: no 5", "begin 16: no 4", "update 16 9 9: no 4")
        self.say("begin 15: ok 0 1", "query 15 2: no 6", "update 15 1 2: no 6", "update 15 1 1: no 7",
                 "insert 15 2: no 6")
        self.say("read 15 1: no 7", "delete 15 1: no 7", "tidy 15 2: no 6", "commit 3: no 5", "abort 3: no 5",
                 "read 3 0: no 5")

    def test_8_absent_rows(self):
        self.say("column 2 - 0: ok 2", "begin 0: ok 0 2", "read 0 0: ok -", "update 0 0 1: no 8", "delete 0 0: no 8")

    def test_10_scratch(self):
        self.say("column 2 0: ok 1", "begin 0: ok 0 1")
        self.assertEqual(self.index.query(0, 0, scratch_words=31), ("no", 10))
        self.assertEqual(self.index.query(0, 2, scratch_words=31), ("no", 6))

    def test_11_12_then_begin_anew(self):
        self.say("column 2 0: ok 1", "begin 0: ok 0 1", "begin 1: ok 0 1", "commit 0: no 11")
        self.say("update 0 0 1: ok 1", "update 1 0 1: ok 1", "commit 0: ok 1 1", "commit 1: no 12", "commit 1: no 12")
        self.say("abort 1: ok 1", "begin 1: ok 1 1", "update 1 0 0: ok 1", "commit 1: ok 2 1")

    def test_12_before_15(self):
        self.say("column 1" + " 0" * 2048 + ": ok 2048", "begin 0: ok 0 2048", "begin 1: ok 0 2048")
        self.say("delete 0 7: ok 1", "delete 1 7: ok 1", "insert 1 0: ok 2", "commit 0: ok 1 2048", "commit 1: no 12")
        self.say("begin 2: ok 1 2048", "insert 2 0: ok 1", "commit 2: no 15", "abort 2: ok 1")

    def test_15_counts_current_rows_and_inserts(self):
        self.say("column 1" + " 0" * 2046 + ": ok 2046", "begin 0: ok 0 2046", "begin 1: ok 0 2046", "insert 0 0: ok 1")
        self.say("insert 1 0: ok 1", "insert 1 0: ok 2", "commit 0: ok 1 2047", "commit 1: no 15", "abort 1: ok 2")
        self.say("begin 1: ok 1 2047", "insert 1 0: ok 1", "commit 1: ok 2 2048")

    def test_16_512_records(self):
        self.say("column 2 0 0: ok 2", "begin 9: ok 0 2", "update 9 0 1: ok 1")
        for stamp in range(1, 513):
            self.say("begin 0: ok %d 2" % (stamp - 1), "update 0 0 1: ok 1", "commit 0: ok %d 2" % stamp)
        self.say("commit 9: no 12", "begin 0: ok 512 2", "commit 0: no 11", "update 0 0 1: ok 1", "commit 0: no 16")
        self.say("tidy 0 1: no 16", "begin 0: ok 512 2", "query 0 1: ok 1 0 1 0")

    def test_17_2048_changes(self):
        self.say("column 2" + " 0" * 32 + ": ok 32")
        for stamp in range(1, 65):
            self.say("begin 0: ok %d 32" % (stamp - 1))
            for row in range(32):
                self.say("update 0 %d 1: ok %d" % (row, row + 1))
            self.say("commit 0: ok %d 32" % stamp)
        self.say("begin 0: ok 64 32", "tidy 0 1: no 17", "update 0 3 1: ok 1", "commit 0: no 17", "abort 0: ok 1")

    def test_18_96_slots(self):
        self.say("column 32 0: ok 1")
        for stamp in range(0, 128, 2):
            value = 1 - (stamp // 2) % 2
            self.say("begin 0: ok %d 1" % stamp, "update 0 0 %d: ok 1" % value, "commit 0: ok %d 1" % (stamp + 1))
            self.say("begin 0: ok %d 1" % (stamp + 1), "tidy 0 1: ok %d 1" % (stamp + 2), "abort 0: ok 0")
        self.say("begin 0: ok 128 1", "update 0 0 1: ok 1", "commit 0: ok 129 1", "begin 0: ok 129 1",
                 "tidy 0 1: no 18")


class Spans(Run):
    """02's first request: the rows of any value of a span, both ends in. It has no word in the step program."""

    def setUp(self):
        super().setUp()
        answers(PRINTED_INPUT[:7], self.index)

    def test_rows_of_the_printed_run(self):
        """The column is 1 2 0 1. Session 1 started at stamp 0; session 0 at stamp 1, when row 0 had gone from 1 to 3."""
        for asked, wanted in (((1, 1, 2), ("ok", 3, 0, 1, 3)), ((1, 0, 3), ("ok", 4, 0, 1, 2, 3)), ((1, 3, 3), ("ok", 0)),
                              ((0, 1, 2), ("ok", 2, 1, 3)), ((0, 2, 3), ("ok", 2, 0, 1)), ((0, 1, 1), ("ok", 1, 3)),
                              ((0, 0, 3), ("ok", 4, 0, 1, 2, 3))):
            self.assertEqual(self.index.span(*asked), wanted, asked)

    def test_refusals_in_their_order(self):
        """2, 4, 5, 6 for either end, 20 straight after 6, 21 last."""
        self.assertEqual(Index().span(16, 9, 0, 0), ("no", 2))
        for asked, number in (((16, 4, 0, 0), 4), ((5, 4, 0, 0), 5), ((1, 4, 0, 0), 6), ((1, 0, 4, 0), 6), ((1, 4, 3, 0), 6),
                              ((1, 2, 1, 0), 20), ((1, 3, 0, 9), 20), ((1, 1, 2, 2), 21), ((1, 0, 3, 3), 21), ((1, 1, 1, 0), 21)):
            self.assertEqual(self.index.span(*asked), ("no", number), asked)

    def test_list_as_long_as_the_answer(self):
        self.assertEqual(self.index.span(1, 1, 2, 3), ("ok", 3, 0, 1, 3))
        self.assertEqual(self.index.span(1, 3, 3, 0), ("ok", 0))

    def test_absent_rows_and_own_list(self):
        """Absent rows are in no span, and what a session lists is not seen yet."""
        self.say("column 3 0 - 2 1 -: ok 5", "begin 0: ok 0 5", "delete 0 0: ok 1", "update 0 2 0: ok 2", "insert 0 1: ok 3")
        self.assertEqual(self.index.span(0, 0, 2), ("ok", 3, 0, 2, 3))
        self.assertEqual(self.index.span(0, 1, 2), ("ok", 2, 2, 3))
        self.say("commit 0: ok 1 6", "begin 0: ok 1 6")
        self.assertEqual(self.index.span(0, 0, 2), ("ok", 3, 2, 3, 5))
        self.assertEqual(self.index.span(0, 0, 0), ("ok", 1, 2))

    def test_no_tidy_shows(self):
        self.say("tidy 0 3: ok 2 1", "abort 0: ok 0", "begin 0: ok 2 4")
        self.assertEqual(self.index.span(0, 2, 3), ("ok", 2, 0, 1))
        self.assertEqual(self.index.span(1, 2, 3), ("ok", 1, 1))

    def test_no_word(self):
        self.say("span 1 1 2: no 19", "span: no 19")


class Decisions(Run):
    """What 01 leaves open, as the project decided it."""

    def test_due_is_count_above_the_threshold(self):
        self.say("column 2" + " 0" * 9 + ": ok 9", "begin 0: ok 0 9")
        for row in range(8):
            self.say("update 0 %d 1: ok %d" % (row, row + 1))
        self.say("commit 0: ok 1 9", "begin 0: ok 1 9", "query 0 0: ok 8 0 1 8", "update 0 8 1: ok 1")
        self.say("commit 0: ok 2 9", "begin 0: ok 2 9", "query 0 0: ok 9 1 0", "query 0 1: ok 9 1 9 0 1 2 3 4 5 6 7 8")
        self.assertEqual(self.index.query(0, 0, threshold=9), ("ok", 9, 0, 0))

    def test_a_row_listed_as_deleted_stands_absent(self):
        self.say("column 2 0 1: ok 2", "begin 0: ok 0 2", "update 0 0 1: ok 1", "delete 0 0: ok 1",
                 "update 0 0 1: no 8")
        self.say("delete 0 0: no 8", "read 0 0: ok 0", "query 0 0: ok 0 0 1 0", "abort 0: ok 1", "begin 0: ok 0 2")
        self.say("update 0 0 1: ok 1")

    def test_a_row_set_back_stays_listed_is_recorded_and_conflicts(self):
        self.say("column 2 0 1: ok 2", "begin 0: ok 0 2", "begin 1: ok 0 2", "update 0 0 1: ok 1", "update 0 0 0: ok 1")
        self.say("update 1 0 1: ok 1", "commit 0: ok 1 2", "commit 1: no 12")
        self.assertEqual(self.changes(1), [(0, set())])

    def test_updating_to_the_same_value_is_accepted_and_listed(self):
        self.say("column 2 0 1: ok 2", "begin 0: ok 0 2", "update 0 0 0: ok 1", "commit 0: ok 1 2", "begin 0: ok 1 2")
        self.say("query 0 0: ok 0 0 1 0")

    def test_replacing_keeps_the_place_and_inserts_come_after(self):
        self.say("column 3 0 1 2: ok 3", "begin 0: ok 0 3", "insert 0 2: ok 1", "update 0 2 0: ok 2",
                 "insert 0 1: ok 3")
        self.say("delete 0 1: ok 4", "update 0 2 1: ok 4", "commit 0: ok 1 5")
        self.assertEqual(self.changes(1), [(2, {1, 2}), (1, {1}), (3, {2}), (4, {1})])

    def test_inserts_have_no_row_number_before_commit(self):
        self.say("column 2 0: ok 1", "begin 0: ok 0 1", "insert 0 1: ok 1", "update 0 1 0: no 7", "read 0 1: no 7")
        self.say("commit 0: ok 1 2", "begin 0: ok 1 2", "update 0 1 0: ok 1")

    def test_inserts_never_conflict(self):
        self.say("column 2: ok 0", "begin 0: ok 0 0", "begin 1: ok 0 0", "insert 0 0: ok 1", "insert 1 1: ok 1")
        self.say("commit 0: ok 1 1", "commit 1: ok 2 2", "begin 0: ok 2 2", "read 0 0: ok 0", "read 0 1: ok 1")

    def test_tidy_by_a_session_with_a_list_keeps_it_and_the_commit_conflicts(self):
        self.say("column 2 0 0: ok 2", "begin 0: ok 0 2", "update 0 0 1: ok 1", "commit 0: ok 1 2", "begin 0: ok 1 2")
        self.say("update 0 0 0: ok 1", "tidy 0 1: ok 2 1", "commit 0: no 12", "begin 0: ok 1 2", "abort 0: ok 1")
        self.say("begin 0: ok 2 2", "update 0 1 1: ok 1", "tidy 0 0: ok 3 1", "commit 0: ok 4 2")

    def test_a_second_tidy_of_the_value_by_the_session_is_14(self):
        self.say("column 2 0: ok 1", "begin 0: ok 0 1", "tidy 0 0: no 13", "update 0 0 1: ok 1", "commit 0: ok 1 1")
        self.say("begin 0: ok 1 1", "tidy 0 0: ok 2 1", "tidy 0 0: no 14", "abort 0: ok 0", "begin 0: ok 2 1",
                 "tidy 0 0: no 13")

    def test_a_deleted_row_stays_absent(self):
        self.say("column 2 0: ok 1", "begin 0: ok 0 1", "delete 0 0: ok 1", "commit 0: ok 1 1", "begin 0: ok 1 1")
        self.say("read 0 0: ok -", "update 0 0 1: no 8", "query 0 0: ok 1 0 0", "tidy 0 0: ok 2 1", "abort 0: ok 0")
        self.say("begin 0: ok 2 1", "read 0 0: ok -", "query 0 0: ok 0 0 0")


class Lines(Run):
    """The step program's language."""

    def unreadable(self, *asked):
        """Checks that each line of bytes is 19, on an index where it would be accepted or refused otherwise."""
        for line in asked:
            index = Index()
            index.create(4, [1, 2, 0, 1])
            index.begin(0)
            self.assertEqual(steps.step(index, line), ("no", 19), line[:60])

    def test_19_comes_before_any_column(self):
        self.say("begin: no 19", "query 0 x: no 19", "begin 0: no 2")

    def test_empty_and_spaces(self):
        self.unreadable(b"", b" ", b"  ", b" begin 0", b"begin 0 ", b"begin  0", b"query 0  1", b"column 4  1",
                        b"column 4 1 ")

    def test_other_bytes(self):
        self.unreadable(b"begin\t0", b"begin 0\r", b"begin 0\0", b"\0", b"begin \xb2", b"begin \xd9\xa3",
                        b"begin 0\x0b", b"\xff", b"begin\xa00", b"column 4 1\r", b"begin 0;", b"begin,0",
                        b"\xef\xbb\xbfbegin 0")

    def test_words_are_case_sensitive_and_whole(self):
        self.unreadable(b"Begin 0", b"BEGIN 0", b"beginn 0", b"begi 0", b"begin0", b"create 4 1", b"Column 4 1", b"0",
                        b"ok")

    def test_missing_and_extra_fields(self):
        self.unreadable(b"begin", b"begin 0 0", b"query 0", b"query 0 0 0", b"read 0", b"update 0 0", b"update 0 0 0 0",
                        b"delete 0", b"delete 0 0 0", b"insert 0", b"insert 0 0 0", b"commit", b"commit 0 0", b"tidy 0",
                        b"tidy 0 0 0", b"abort", b"abort 0 0")

    def test_fields_that_are_no_numbers(self):
        self.unreadable(b"begin 00000", b"begin 10000", b"begin -", b"begin -0", b"begin +0", b"begin 0.", b"begin 0x0",
                        b"read 0 -", b"update 0 0 -", b"insert 0 -", b"query 0 one", b"begin 1_0", b"begin a")

    def test_leading_zeros_are_digits(self):
        self.say("column 0004 0001 002 00 1: ok 4", "begin 0000: ok 0 4", "begin 0: ok 0 4", "read 00 0001: ok 2")
        self.say("begin 0016: no 4", "begin 9999: no 4", "query 0 9999: no 6", "read 0 9999: no 7")

    def test_column_fields(self):
        self.unreadable(b"column", b"column -", b"column - 1", b"column 255", b"column 0255", b"column 9999 0",
                        b"column 4 255", b"column 4 0255", b"column 4 1 --", b"column 4 -1", b"column 4 00001",
                        b"column 00004", b"column 4 x")
        self.say("column 1: ok 0", "column 1 -: ok 1", "column 4 - - 3: ok 3")
        self.say("column 0: no 3", "column 33: no 3", "column 254: no 3", "column 4 4: no 3", "column 4 254: no 3")

    def test_the_whole_line_is_judged_for_19_first(self):
        self.unreadable(b"column 0 x", b"column 33 255", b"column 4 9 -0", b"column 4" + b" 1" * 2049 + b" 255",
                        b"column 4" + b" 1" * 2049 + b" ", b"query 99 99 99", b"begin 99 ")

    def test_8192_bytes_are_read_8193_are_not(self):
        self.say("column 4" + " 001" * 2046 + ": ok 2046", "column 4" + " 001" * 2040 + " 01" * 8 + ": ok 2048")
        self.say("column 4" + " 1" * 4092 + ": no 3")
        self.unreadable(b"column 04" + b" 001" * 2046, b"column 4" + b" 1" * 4093, b"x" * 8192, b"x" * 8193)

    def test_splitting(self):
        for data, count in ((b"", 0), (b"\n", 1), (b"begin 0", 1), (b"begin 0\n", 1), (b"\n\n", 2), (b"a\n\nb", 3),
                            (b"x" * 30000 + b"\nbegin 0", 2), (b"a\rb\x0bc\x85d", 1)):
            self.assertEqual(len(list(lines.split(io.BytesIO(data)))), count, data[:20])

    def test_a_last_line_without_a_newline_counts(self):
        data = b"column 1 0\nbegin 0"
        self.assertEqual(list(steps.answers(io.BytesIO(data), Index())), [b"ok 1", b"ok 0 1"])

    def test_a_line_too_long_is_one_answer(self):
        data = b"column 1 0\n" + b"begin 0 " * 3000 + b"\nbegin 0\n" + b"9" * 8193
        self.assertEqual(list(steps.answers(io.BytesIO(data), Index())), [b"ok 1", b"no 19", b"ok 0 1", b"no 19"])


if __name__ == "__main__":
    unittest.main(module=None, argv=[sys.argv[0], "discover", "-s", HERE, *sys.argv[1:]])
