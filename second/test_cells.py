"""The tests of cells.py: expected values are written by hand; then runs that are compared with rules.py."""

import unittest
from random import Random

import cells
import cells_runs
import cells_spans
import damaged
import runs
from rules import Index
from steps import step
from tables import ABSENT

FIRST = 2 ** 0


def ran(*asked, t=None):
    """The tables after the calls, and the answers."""
    t = t or cells.empty()
    scratch = [7] * 32
    return t, [cells.perform(t, scratch, name, args) for name, args in asked]


PRINTED = (("create", (4, [1, 2, 0, 1])), ("begin", (0,)), ("begin", (1,)), ("update", (0, 0, 3)), ("commit", (0,)))


class Room(unittest.TestCase):
    """Number 1."""

    def test_each_table_one_cell_short(self):
        """One cell less than the limit is refused for each table, whatever else holds, and nothing changes."""
        for name in ("clock", "slots", "words", "heads", "log", "changes", "sessions"):
            for call, args in (("create", (0, [])), ("begin", (99,)), ("abort", (0,)), ("query", (16, 99, 8)), ("span", (16, 99, 0))):
                t = cells.empty()
                getattr(t, name).pop()
                before = t.copy().cells()
                self.assertEqual(cells.perform(t, [], call, args), ("no", 1), name)
                self.assertEqual(t.cells(), before)

    def test_room_is_not_asked_of_the_scratch(self):
        """A short scratch is 10, not 1, and only query asks."""
        t, _ = ran(*PRINTED)
        self.assertEqual(cells.query(t, [0] * 31, 1, 1, 8), ("no", 10))
        self.assertEqual(cells.query(t, [0] * 31, 1, 4, 8), ("no", 6))
        self.assertEqual(cells.query(t, [0] * 32, 1, 1, 8), ("query", 0, 0, 2))


class Damage(unittest.TestCase):
    """Number 2."""

    def test_each_clause(self):
        """Each table by hand fails the sentence named beside it, and no table that should hold fails."""
        for name, sentence, change in cells_runs.CLAUSES:
            t = cells_runs.whole()
            change(t)
            self.assertEqual(cells.failing(t), sentence, name)
            for answer in (cells.span(t, [0] * 9, 16, 1, 0), cells.begin(t, 5)):
                self.assertEqual(answer == ("no", 2), sentence is not None, name)

    def test_2_comes_before_4_and_create_does_not_ask(self):
        """Damaged tables refuse a session that is none with 2, and are created anew."""
        t = cells_runs.whole()
        t.clock[4] = 97
        self.assertEqual(cells.begin(t, 16), ("no", 2))
        self.assertEqual(cells.create(t, 2, [1, 255]), ("count", 2))
        self.assertIsNone(cells.failing(t))

    def test_no_tables_at_all(self):
        """Tables of 0 are damaged: C is 0."""
        for name in cells_runs.NAMES:
            t, answers = ran((name, (0, 0, 8)[:{"begin": 1, "commit": 1, "abort": 1, "update": 3, "query": 3, "span": 3}.get(name, 2)]))
            self.assertEqual(answers, [("no", 2)], name)

    def test_damaged_py_agrees(self):
        """On clauses that a model can hold, damaged.py says the same."""
        for name, sentence, change in cells_runs.CLAUSES:
            t = cells_runs.whole()
            change(t)
            if sentence is None:
                self.assertFalse(damaged.damaged(cells.model(t)), name)
            elif sentence in ("changes_hold", "vectors_hold"):
                self.assertTrue(damaged.damaged(cells.model(t)), name)


class Create(unittest.TestCase):
    """Create."""

    def test_cells(self):
        """Every cell within the needed lengths, over garbage; cells beyond stay."""
        t = cells.Lent([9] * 8, [9] * 290, [9] * 3075, [9] * 33, [9] * 2050, [9] * 4099,
                       [cells.Place(9, 9, 9, 9, [9] * 32, [9] * 32) for _ in range(18)])
        self.assertEqual(cells.create(t, 2, [1, 255, 0, 1]), ("count", 4))
        self.assertEqual(t.clock, [2, 4, 0, 4, 2, 0, 9, 9])
        self.assertEqual(t.slots, [0, 1] + [0] * 286 + [9, 9])
        self.assertEqual(t.words, [4] + [0] * 31 + [0b1001] + [0] * 31 + [0] * 3008 + [9, 9, 9])
        self.assertEqual(t.heads, [0, 1] + [0] * 30 + [9])
        self.assertEqual(t.log, [0] * 2048 + [9, 9])
        self.assertEqual(t.changes, [0] * 4096 + [9, 9, 9])
        self.assertEqual([place.cells() for place in t.sessions], [[0] * 68] * 16 + [[9] * 68] * 2)

    def test_refusals_of_3(self):
        """C 0, 33 and 2^64 - 1, 2,049 rows, a byte of C; nothing changes."""
        for C, column in ((0, []), (33, []), (2 ** 64 - 1, []), (2 ** 32 + 1, []), (2, [0] * 2049), (2, [0, 2]), (2, [254])):
            t = cells_runs.whole()
            before = t.copy().cells()
            self.assertEqual(cells.create(t, C, column), ("no", 3))
            self.assertEqual(t.cells(), before)

    def test_row_2047(self):
        """P10: row 2,047 is bit 63 of word 31."""
        t, answers = ran(("create", (32, [255] * 2047 + [31])))
        self.assertEqual(answers, [("count", 2048)])
        self.assertEqual(t.words[31 * 32 + 31], 2 ** 63)
        self.assertEqual(sum(t.words), 2 ** 63)


class Printed(unittest.TestCase):
    """The printed run, cell by cell."""

    def test_commit(self):
        """Record 1 is row 0 with {1, 3}; session 0 is free and session 1 open."""
        t, answers = ran(*PRINTED)
        self.assertEqual(answers, [("count", 4), ("stamp", 0, 4), ("stamp", 0, 4), ("count", 1), ("stamp", 1, 4)])
        self.assertEqual(t.clock, [4, 4, 1, 4, 4, 1])
        self.assertEqual([t.log[i] for i in (0, 512, 1024, 1536)], [1, 1, 4, 1])
        self.assertEqual(sum(t.log), 7)
        self.assertEqual((t.changes[0], t.changes[2048], sum(t.changes)), (0, 0b1010, 0b1010))
        self.assertEqual(t.sessions[0].cells(), [0] * 68)
        self.assertEqual(t.sessions[1].cells(), [1, 0, 4, 0] + [0] * 64)

    def test_update_cells(self):
        """The entry's cells, and those of a delete and an insert."""
        t, _ = ran(*PRINTED[:4], ("delete", (0, 1)), ("insert", (0, 2)), ("update", (0, 0, 1)))
        self.assertEqual(t.sessions[0].cells()[:4], [1, 0, 4, 3])
        self.assertEqual(t.sessions[0].at, [0, 1, 65535] + [0] * 29)
        self.assertEqual(t.sessions[0].to, [1, 255, 2] + [0] * 29)

    def test_tidy(self):
        """Record 2 is row 0 with {1}; value 3's new slot is slot 4 and has row 0 only."""
        t, answers = ran(*PRINTED, ("begin", (0,)), ("tidy", (0, 3)))
        self.assertEqual(answers[-1], ("stamp", 2, 1))
        self.assertEqual(t.clock, [4, 4, 2, 4, 5, 2])
        self.assertEqual([t.log[i] for i in (1, 513, 1025, 1537)], [2, 2, 4, 2])
        self.assertEqual((t.changes[1], t.changes[2049]), (0, 0b10))
        self.assertEqual([t.slots[4], t.slots[96 + 4], t.slots[192 + 4]], [3, 2, 3 + 1])
        self.assertEqual(t.words[4 * 32:5 * 32], [FIRST] + [0] * 31)
        self.assertEqual(t.heads[:4], [0, 1, 2, 4])

    def test_query_and_picker(self):
        """A query with flips fills 32 words of the scratch and no more; one without names the slot and fills none."""
        t, _ = ran(*PRINTED, ("begin", (0,)))
        scratch = [7] * 33
        self.assertEqual(cells.query(t, scratch, 1, 1, 8), ("query", 0, 0, 2))
        self.assertEqual(scratch, [7] * 33)
        self.assertEqual(cells.picked(t.words, scratch, 2), [0b1001] + [0] * 31)
        self.assertEqual(cells.query(t, scratch, 0, 1, 0), ("query", 1, 1, 0))
        self.assertEqual(scratch, [0b1000] + [0] * 31 + [7])
        self.assertEqual(cells.picked(t.words, scratch, 0), [0b1000] + [0] * 31)
        self.assertEqual(cells.query(t, scratch, 0, 1, 1)[2], 0)

    def test_picker_where_nothing_is_lent(self):
        """A place whose words were not lent is an empty part."""
        self.assertEqual(cells.picked([1] * 32, [2] * 31, 0), [])
        self.assertEqual(cells.picked([1] * 63, [2] * 32, 2), [])
        self.assertEqual(cells.picked([1] * 63, [2] * 32, 1), [1] * 32)
        self.assertEqual(cells.picked([1] * 63, [2] * 32, 2 ** 64 - 1), [])

    def test_wide_numbers(self):
        """Numbers of 64 bits name nothing, and the low bits do not count."""
        t, _ = ran(*PRINTED)
        for big in (2 ** 8, 2 ** 16, 2 ** 32, 2 ** 63, 2 ** 64 - 1):
            self.assertEqual(cells.begin(t, big), ("no", 4))
            self.assertEqual(cells.read(t, 1, big), ("no", 7))
            self.assertEqual(cells.tidy(t, 1, big), ("no", 6))
        self.assertEqual(cells.query(t, [0] * 32, 1, 1, 2 ** 64 - 1), ("query", 0, 0, 2))


class Span(unittest.TestCase):
    """The rows of any value of a span, in a lent list."""

    def test_by_hand(self):
        """Each answer and each cell of the list; the tables and the scratch stay."""
        for place, (make, lent, args, wanted, after) in enumerate(cells_spans.SPANS):
            t, scratch, row_list = make(), [7] * 3, list(lent)
            self.assertIsNone(cells.failing(t), place)
            before = t.copy().cells()
            self.assertEqual(cells.perform(t, scratch, "span", args, row_list), wanted, place)
            self.assertEqual((row_list, t.cells(), scratch), (after, before, [7] * 3), place)

    def test_1_and_2_come_first(self):
        """Whatever the numbers and the list are."""
        for name in ("clock", "slots", "words", "heads", "log", "changes", "sessions"):
            t, row_list = cells_spans.shared(), [9] * 5
            getattr(t, name).pop()
            for args in ((0, 0, 1), (16, 0, 1), (3, 0, 1), (0, 4, 0), (0, 1, 0)):
                self.assertEqual((cells.span(t, row_list, *args), row_list), (("no", 1), [9] * 5), name)
        t = cells_spans.shared()
        t.clock[4] = 97
        for args in ((0, 0, 1), (16, 0, 1), (3, 0, 1), (0, 4, 0), (0, 1, 0)):
            self.assertEqual(cells.span(t, [], *args), ("no", 2))

    def test_one_list_for_several(self):
        """What an earlier span wrote stays behind what a later one writes; no scratch is asked for."""
        t, row_list = cells_spans.shared(), [9] * 6
        answers = [cells.perform(t, [], "span", args, row_list) for args in ((0, 0, 3), (0, 2, 2), (1, 3, 3), (1, 1, 0), (0, 3, 3))]
        self.assertEqual(answers, [("count", 4), ("count", 1), ("count", 2), ("no", 20), ("count", 0)])
        self.assertEqual(row_list, [2, 3, 2, 3, 9, 9])

    def test_printed_run(self):
        """Session 1 started before commit 1 moved row 0 from value 1 to 3, session 0 after it."""
        t, _ = ran(*PRINTED, ("begin", (0,)))
        for args, rows in (((1, 1, 2), [0, 1, 3]), ((0, 1, 2), [1, 3]), ((0, 2, 3), [0, 1]), ((0, 3, 3), [0]), ((1, 3, 3), [])):
            row_list = [9] * 4
            self.assertEqual(cells.span(t, row_list, *args), ("count", len(rows)))
            self.assertEqual(row_list, rows + [9] * (4 - len(rows)))

    def test_the_union_of_its_queries(self):
        """On tables of every kind, what the queries of its values give, taken together."""
        random, rows_seen = Random(7), 0
        for made in (cells_runs.by_hand, cells_runs.poked, cells_runs.full, cells_runs.grown) * 12:
            t = made(random)
            for n in (n for n, place in enumerate(t.sessions) if place.live):
                first = random.randrange(t.clock[0])
                last = random.randrange(first, t.clock[0])
                held = set()
                for value in range(first, last + 1):
                    scratch = [0] * 32
                    held |= cells.vector(cells.picked(t.words, scratch, cells.query(t, scratch, n, value, 8)[3]))
                row_list = [9] * 2050
                self.assertEqual(cells.span(t, row_list, n, first, last), ("count", len(held)))
                self.assertEqual(row_list, sorted(held) + [9] * (2050 - len(held)))
                rows_seen += len(held)
                break
        self.assertGreater(rows_seen, 1000)


class ByHand(unittest.TestCase):
    """Sound tables that no run makes."""

    def answers(self, name):
        """The answers to the calls of one of the six, the tables and the scratch afterwards."""
        make, asked = cells_runs.SIX[name]
        t, scratch = make(), [7] * 32
        self.assertIsNone(cells.failing(t), name)
        return [cells.perform(t, scratch, *call) for call in asked], t, scratch

    def test_records_after_the_version_only(self):
        """Row 3's change has the version's own stamp, or one before, and does not count: value 1 holds 0 (or 1) and 2."""
        said, _, scratch = self.answers("query over records b to s")
        self.assertEqual((said, scratch), ([("query", 1, 0, 0), ("absent",)], [0b101] + [0] * 31))
        said, _, scratch = self.answers("query over records 1 to s")
        self.assertEqual((said, scratch), ([("query", 1, 0, 0), ("absent",)], [0b110] + [0] * 31))

    def test_stale(self):
        """A head above the start alone makes stale, and so does a tidy record that names a moved row."""
        self.assertEqual(self.answers("no head test in staleness")[0], [("no", 14)])
        self.assertEqual(self.answers("the moved-row test on commits only")[0], [("no", 14)])

    def test_tidy_at_the_start(self):
        """The head, slot 2 of stamp 1, is the version at the start; slot 4 copies its {2}, links to it, and row 3 loses 1."""
        said, t, _ = self.answers("the tidy vector queried at now")
        self.assertEqual(said, [("stamp", 3, 1), ("query", 0, 0, 3)])
        self.assertEqual([t.slots[4], t.slots[96 + 4], t.slots[192 + 4], t.heads[1]], [1, 3, 3, 4])
        self.assertEqual(t.words[4 * 32:5 * 32], [0b100] + [0] * 31)
        self.assertEqual((t.changes[2], t.changes[2050]), (3, 0))

    def test_largest(self):
        """Read gives the smallest of the values that hold a row; the commit toggles that one: row 1 gets {0}."""
        said, t, _ = self.answers("read taking the largest value")
        self.assertEqual(said, [("value", 0), ("value", 1), ("count", 1), ("stamp", 1, 4)])
        self.assertEqual((t.changes[0], t.changes[2048]), (1, 0b1))

    def test_limits(self):
        """At each limit and one below it; the smallest number where several apply."""
        for i, (make, asked, wanted) in enumerate(cells_runs.LIMITS):
            t = make()
            self.assertIsNone(cells.failing(t), i)
            self.assertEqual(cells.perform(t, [0] * 32, *asked), wanted, i)

    def test_a_row_twice_in_one_record(self):
        """The last change decides: row 0 is not flipped, and has no set with 1."""
        t = cells_runs.six_tables(2, [("commit", [(0, {1}), (0, set())])], cells_runs.FIRST, [0, 1], 1)
        self.assertEqual(cells.query(t, [7] * 32, 0, 1, 8), ("query", 0, 0, 2))
        self.assertEqual(cells.tidy(t, 0, 1), ("no", 13))
        t = cells_runs.six_tables(2, [("commit", [(0, set()), (0, {1})])], cells_runs.FIRST, [0, 1], 1)
        scratch = [7] * 32
        self.assertEqual(cells.query(t, scratch, 0, 1, 0), ("query", 1, 1, 0))
        self.assertEqual(scratch[0], 0b101)

    def test_garbage_is_kept(self):
        """A commit and a tidy over tables with garbage past what is in use write their own cells only."""
        t, _ = ran(*PRINTED[:4])
        cells_runs.litter(Random(5), t)
        before = t.copy()
        self.assertEqual(cells.commit(t, 0), ("stamp", 1, 4))
        changed = {name: [i for i, (a, b) in enumerate(zip(before.cells()[name], t.cells()[name])) if a != b] for name in t.cells()}
        self.assertTrue(set(changed["log"]) <= {0, 512, 1024, 1536})
        self.assertTrue(set(changed["changes"]) <= {0, 2048})
        self.assertEqual((changed["slots"], changed["words"], changed["heads"]), ([], [], []))
        self.assertEqual(changed["clock"], [2, 5])

    def test_refused_calls_change_nothing(self):
        """Over a run of everything, a refusal leaves every cell as it was."""
        run, answer, t, scratch, row_list, refused = cells_runs.steps(3), None, None, None, [], 0
        for _ in range(700):
            asked = run.send(answer)
            if asked[0] == "lend":
                (_, t, scratch), answer = asked, None
                continue
            if asked[0] == "list":
                (_, row_list), answer = asked, None
                continue
            before = (t.copy().cells(), list(scratch), list(row_list))
            answer = cells.perform(t, scratch, *asked[1:], row_list)
            if answer[0] in ("no", "value", "absent", "part"):
                refused += 1
                self.assertEqual((t.cells(), scratch, row_list), before)
        self.assertGreater(refused, 100)


class Runs(unittest.TestCase):
    """Runs of the step program on cells, beside rules.py."""

    def plain(self, t, scratch, answer):
        """An answer on cells as rules.py gives it."""
        if answer[0] == "query":
            rows = sorted(cells.vector(cells.picked(t.words, scratch, answer[3])))
            return ("ok", answer[1], answer[2], len(rows), *rows)
        if answer[0] == "no":
            return answer
        return ("ok", ABSENT) if answer[0] == "absent" else ("ok", *answer[1:])

    def spans_beside(self, index, t):
        """Two spans of the first open session, on both: of all values, and of the lower half into a list that is a cell too short."""
        opened = [n for n, session in enumerate(index.sessions) if session is not None]
        if opened:
            row_list = [9] * 2048
            count = cells.span(t, row_list, opened[0], 0, index.C - 1)[1]
            self.assertEqual(index.span(opened[0], 0, index.C - 1), ("ok", count, *row_list[:count]))
            rows = index.span(opened[0], 0, index.C // 2)[2:] if index.C > 1 else ()
            if rows:
                self.assertEqual(cells.span(t, [9] * (len(rows) - 1), opened[0], 0, index.C // 2), ("no", 21))

    def beside(self, kind, seed, count):
        """Makes the run of lines on both; the cells' model is the rules' state after each."""
        import lines
        index, t, scratch = Index(), cells.empty(), [0] * 32
        for place, line in enumerate(runs.lines_of(kind, count, seed)):
            try:
                word, fields = lines.request(line)
            except lines.Unreadable:
                continue
            if word == "column":
                asked = ("create", (fields[0], [255 if value is ABSENT else value for value in fields[1]]))
            elif word == "query":
                asked = ("query", (*fields, 8))
            else:
                asked = (word, tuple(fields))
            answer = cells.perform(t, scratch, *asked)
            self.assertEqual(self.plain(t, scratch, answer), step(index, line), line)
            if index.C and place % 8 == 0:
                self.spans_beside(index, t)
            if index.C:
                again = cells.model(t)
                self.assertEqual((again.C, again.first_rows, again.stamp, again.rows, again.slots, again.heads, again.log),
                                 (index.C, index.first_rows, index.stamp, index.rows, index.slots, index.heads, index.log))
                self.assertEqual([s and (s.stamp, s.rows, s.list) for s in again.sessions], [s and (s.stamp, s.rows, s.list) for s in index.sessions])
                self.assertEqual(cells.lay(index).cells(), t.cells())

    def test_mixed(self):
        """Interleaved sessions."""
        self.beside("mixed", 1, 600)

    def test_limits(self):
        """Every limit."""
        self.beside("limits", 2, 300)

    def test_evening(self):
        """An evening."""
        self.beside("evening", 3, 200)

    def test_hand_made_tables_are_sound(self):
        """What the generators call sound is undamaged by both, and is laid down as it was read."""
        random = Random(11)
        for made in (cells_runs.by_hand, cells_runs.full, cells_runs.grown, cells_runs.poked) * 8:
            t = made(random)
            if t.clock[0]:
                self.assertIsNone(cells.failing(t), made.__name__)
                self.assertFalse(damaged.damaged(cells.model(t)))
                self.assertEqual(cells.lay(cells.model(t)).cells(), t.cells())


if __name__ == "__main__":
    unittest.main()
