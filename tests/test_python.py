"""python/kerenvuf.py: its calls against the second program, in memory and in a file that is opened anew between any two calls; several
processes and threads; the refusals by name; files that are none. What needs the library is run on x86-64, where python/build made it."""

import fcntl
import os
import platform
import re
import shutil
import signal
import subprocess
import sys
import tempfile
import textwrap
import threading
import time
import unittest
from unittest import mock

ROOT = os.path.dirname(os.path.dirname(os.path.abspath(__file__)))
MODULE = os.path.join(ROOT, "python")
sys.path[:0] = [MODULE, os.path.join(ROOT, "second")]

import cells  # noqa: E402
import kerenvuf  # noqa: E402
import lines  # noqa: E402
import rules  # noqa: E402
import runs  # noqa: E402
import steps  # noqa: E402
from kerenvuf import FULL, LIMITS, Index, Refusal, Refused, WrongFile  # noqa: E402

WHY = "not run: the archive links into x86-64 programs only"
needs_library = unittest.skipUnless(platform.machine() == "x86_64", WHY)


def asked(index, line):
    """What the index answers to a readable line, as the second program writes it; its words are the methods' names."""
    word, fields = lines.request(line)
    name = "create" if word == "column" else word
    try:
        answer = getattr(index, name)(*fields)
    except Refused as refused:
        return f"no {int(refused.number)}"
    if name == "query":
        flips, due, rows = answer
        answer = (flips, int(due), len(rows), *rows)
    return " ".join(["ok", *("-" if number is None else str(number) for number in answer)])


def readable(kind, count, seed):
    """The lines of a generated run that can be read, each with the second program's answer."""
    model = rules.Index()
    for line in lines.split(iter(runs.input_of(kind, count, seed).splitlines(keepends=True))):
        answer = lines.answer_line(steps.step(model, line)).decode()
        if answer != "no 19":
            yield line, answer


class InFolder(unittest.TestCase):
    """A test with a folder of its own."""

    def setUp(self):
        """The folder, and the path of a file in it."""
        self.folder = tempfile.mkdtemp()
        self.addCleanup(shutil.rmtree, self.folder)
        self.path = os.path.join(self.folder, "crowns.kv")

    def opened(self, path=None, **more):
        """An index in the file, closed at the end of the test."""
        index = Index.open(path or self.path, **more)
        self.addCleanup(index.close)
        return index

    def elsewhere(self, program, *words, **more):
        """Another process that runs a piece of Python, with the module as `kerenvuf` and the file as `path`."""
        start = f"import sys, time; sys.path.insert(0, {MODULE!r}); import kerenvuf; path = {self.path!r}\n"
        return subprocess.Popen([sys.executable, "-B", "-c", start + program, *words], stdout=subprocess.PIPE, text=True, **more)


@needs_library
class Calls(InFolder):
    """Every answer is the second program's."""

    def agrees(self, index, kind, count, seed):
        """All readable lines of a run."""
        for place, (line, answer) in enumerate(readable(kind, count, seed)):
            self.assertEqual(asked(index, line), answer, (kind, seed, place, line[:60]))

    def test_spans(self):
        """Spans of open sessions between the lines of a run, in memory and in a file."""
        for kind, path in (("mixed", None), ("evening", None), ("limits", None), ("mixed", self.path)):
            index, spans = self.opened(path, sync=False) if path else Index(), 0
            for line, answer in zip(*runs.with_spans(kind, 2500, 15, rules.Index())):
                said = answer.decode()
                if not line.startswith(b"span "):
                    if said != "no 19":
                        asked(index, line)
                elif said != "no 19":
                    _, count, *rows = said.split(" ")
                    self.assertEqual(index.span(*map(int, line.split()[1:])), list(map(int, rows)), (kind, line))
                    self.assertEqual(int(count), len(rows))
                    spans += 1
            self.assertGreater(spans, 500, kind)

    def test_in_memory(self):
        """Runs of each kind, in memory."""
        for kind, count in (("mixed", 6000), ("limits", 12000), ("evening", 4000), ("bad", 3000)):
            self.agrees(Index(), kind, count, 11)

    def test_in_a_file(self):
        """Runs in a file."""
        for kind, count in (("mixed", 2000), ("evening", 1500)):
            path = os.path.join(self.folder, kind)
            self.agrees(self.opened(path, sync=False), kind, count, 12)

    def test_restart_between_any_two_calls(self):
        """The file is closed and opened anew after each call."""
        for place, (line, answer) in enumerate(readable("mixed", 1500, 13)):
            index = Index.open(self.path, sync=False)
            self.assertEqual(asked(index, line), answer, (place, line))
            index.close()

    def test_a_process_for_each_call(self):
        """Each call is made by a process of its own, which ends without closing anything."""
        program = ("index = kerenvuf.Index.open(path); name, *words = sys.argv[1:]; numbers = list(map(int, words))\n"
                   "try: print(tuple((index.create(numbers[0], numbers[1:]) if name == 'create' else getattr(index, name)(*numbers))))\n"
                   "except kerenvuf.Refused as refused: print(refused.name)\n")
        for words, answer in (("begin 0", "DAMAGED"), ("create 4 1 2 0 1", "(4,)"), ("begin 0", "(0, 4)"), ("begin 1", "(0, 4)"),
                              ("update 0 0 3", "(1,)"), ("commit 0", "(1, 4)"), ("query 1 1", "(0, False, (0, 3))"), ("begin 0", "(1, 4)"),
                              ("query 0 1", "(1, False, (3,))"), ("tidy 0 3", "(2, 1)"), ("query 0 3", "(1, False, (0,))"),
                              ("update 1 0 2", "(1,)"), ("commit 1", "CONFLICT"), ("abort 1", "(1,)"), ("read 0 9", "NO_ROW")):
            said, _ = self.elsewhere(program, *words.split()).communicate()
            self.assertEqual(said.strip(), answer, words)

    def test_cells(self):
        """The file's tables, cell by cell, are those of the second program after the same calls."""
        index, model = self.opened(sync=False), cells.empty()
        for line, _ in readable("mixed", 400, 14):
            word, fields = lines.request(line)
            if word == "column":
                cells.create(model, fields[0], [255 if value is None else value for value in fields[1]])
            elif word != "query" and word != "read":
                getattr(cells, word)(model, *fields)
            asked(index, line)
        with open(self.path, "rb") as file:
            data = file.read()
        self.assertEqual(len(data), 64 + kerenvuf.SIZE)
        found = {name: data[64 + kerenvuf.OFFSETS[name]:][:size] for (name, _, _), size in zip(kerenvuf.TABLES, kerenvuf.SIZES)}
        for name, size, _ in kerenvuf.TABLES[:-1]:
            have = [int.from_bytes(found[name][at:at + size], sys.byteorder) for at in range(0, len(found[name]), size)]
            self.assertEqual(have, getattr(model, name), name)
        for place, session in enumerate(model.sessions):
            have = found["sessions"][112 * place:][:112]
            self.assertEqual(list(memoryview(have[:16]).cast("I")), [session.live, session.start, session.rows, session.count])
            self.assertEqual((list(memoryview(have[16:80]).cast("H")), list(have[80:])), (session.at, session.to))

    def test_readme(self):
        """The README's example runs, and prints what stands beside its lines."""
        with open(os.path.join(ROOT, "README.md")) as file:
            shown = re.search(r"^    import kerenvuf\n.*?(?=^\S)", file.read(), re.M | re.S)[0]
        wanted = re.findall(r"print\(.*?\)  +# (.*)", shown)
        run = self.elsewhere(textwrap.dedent(shown), cwd=self.folder)
        self.assertEqual((run.communicate()[0].splitlines(), run.returncode), (wanted, 0))
        self.assertEqual((len(wanted), self.opened().column()), (3, [1, 1, 0, 0, 2]))

    def test_numbers_of_any_size(self):
        """A number that no 64 bits hold is out of range, and never another number."""
        index = Index()
        index.create(4, [0, None, 3])
        index.begin(0)
        for far in (-1, 1 << 64, 1 << 70, (1 << 64) - 1):
            for name, numbers, refusal in (("begin", [far], "NO_SESSION"), ("read", [0, far], "NO_ROW"), ("insert", [0, far], "NO_VALUE"),
                                           ("span", [0, far, 3], "NO_VALUE"), ("span", [0, 0, far], "NO_VALUE"),
                                           ("create", [far, []], "BAD_COLUMN"), ("create", [4, [far]], "BAD_COLUMN")):
                with self.assertRaises(Refused) as raised:
                    getattr(index, name)(*numbers)
                self.assertEqual(raised.exception.name, refusal)
        self.assertEqual(index.query(0, 3, threshold=1 << 80), (0, False, (2,)))
        for column in (b"\x00\xff\x03", bytearray(b"\x00\xff\x03"), (0, None, 3), iter([0, None, 3])):
            index.create(4, column)
            self.assertEqual(index.column(), [0, None, 3])
        with self.assertRaises(TypeError):
            index.begin(1.5)


@needs_library
class Refusals(unittest.TestCase):
    """Each refusal that the module can meet, by name."""

    def refuses(self, name, call, *numbers):
        """A call that is refused by that name, with its number and sentence, and changes nothing."""
        before = self.cells()
        with self.assertRaises(Refused) as raised:
            call(*numbers)
        why = raised.exception
        self.assertEqual((why.name, why.number, why.sentence), (name, Refusal[name], Refusal[name].sentence))
        self.assertIn(f"refused by {int(Refusal[name])}, {name}: {Refusal[name].sentence}", str(why))
        self.assertEqual(self.cells(), before)

    def cells(self):
        """Every cell."""
        return bytes(self.index._tables.cells)

    def setUp(self):
        """Five crowns, one of them gone."""
        self.index = Index()
        self.refuses("DAMAGED", self.index.begin, 0)
        self.refuses("BAD_COLUMN", self.index.create, 0, [])
        self.index.create(4, [0, 0, 1, 2, None])

    def test_arguments(self):
        """2 to 8 and 11."""
        index = self.index
        self.refuses("BAD_COLUMN", index.create, 33, [])
        self.refuses("BAD_COLUMN", index.create, 4, [4])
        self.refuses("BAD_COLUMN", index.create, 4, [0] * 2049)
        self.refuses("NO_SESSION", index.begin, 16)
        self.refuses("NOT_OPEN", index.abort, 3)
        index.begin(3)
        self.refuses("NO_VALUE", index.query, 3, 4)
        self.refuses("NO_ROW", index.read, 3, 5)
        self.refuses("ROW_ABSENT", index.update, 3, 4, 0)
        self.refuses("LIST_EMPTY", index.commit, 3)

    def test_spans(self):
        """4, 5, 6 at either end and 20, in this order; 21 where a shorter list is lent, and then no cell of it is written."""
        index = self.index
        self.refuses("NO_SESSION", index.span, 16, 9, 0)
        self.refuses("NOT_OPEN", index.span, 3, 9, 0)
        index.begin(3)
        self.refuses("NO_VALUE", index.span, 3, 4, 0)
        self.refuses("NO_VALUE", index.span, 3, 0, 4)
        self.refuses("BACKWARD", index.span, 3, 2, 1)
        with self.assertRaisesRegex(Refused, r"span\(3, 2, 1\) was refused by 20, BACKWARD: the first value is above the last"):
            index.span(3, 2, 1)
        self.assertEqual(index.span(3, 0, 1), [0, 1, 2])
        index._list[:] = [9] * LIMITS.rows
        with mock.patch.object(kerenvuf, "LIMITS", LIMITS._replace(rows=2)):
            self.refuses("SHORT_LIST", index.span, 3, 0, 1)
        self.assertEqual(list(index._list), [9] * LIMITS.rows)
        with mock.patch.object(kerenvuf, "LIMITS", LIMITS._replace(rows=3)):
            self.assertEqual(index.span(3, 0, 1), [0, 1, 2])
        self.assertEqual(list(index._list), [0, 1, 2] + [9] * (LIMITS.rows - 3))

    def test_list(self):
        """9, and 12 with the session still open."""
        index = self.index
        index.begin(0)
        index.begin(1)
        index.update(0, 0, 3)
        index.update(1, 0, 2)
        for _ in range(31):
            index.insert(0, 1)
        self.refuses("LIST_FULL", index.insert, 0, 1)
        self.assertEqual(index.commit(0), (1, 36))
        self.refuses("CONFLICT", index.commit, 1)
        self.assertEqual(index.sessions(), [(1, 0, 5, 1)])
        self.assertEqual(index.abort(1).length, 1)

    def test_tidy(self):
        """13, 14 and 18."""
        index = self.index
        index.begin(0)
        self.refuses("NOTHING_TO_MOVE", index.tidy, 0, 0)
        for turn in range(93):
            index.begin(1)
            index.update(1, 0, 1 if turn % 2 == 0 else 0)
            index.commit(1)
            index.abort(0)
            index.begin(0)
            if turn < 92:
                self.assertEqual(index.tidy(0, 0).moved, 1)
                self.refuses("STALE", index.tidy, 0, 0)
        self.refuses("SLOTS_FULL", index.tidy, 0, 0)
        self.assertEqual(index.used().slots, LIMITS.slots)

    def test_rows_records_changes(self):
        """15, 16 and 17; and how an index goes on."""
        index = self.index
        index.create(4, [0] * 2048)
        index.begin(0)
        index.insert(0, 1)
        self.refuses("ROWS_FULL", index.commit, 0)
        index.create(4, [0] * 40)
        for count, name in ((1, "RECORDS_FULL"), (32, "CHANGES_FULL")):
            with self.assertRaises(Refused) as raised:
                while True:
                    with index.session() as marker:
                        for row in range(count):
                            marker.update(row, 1 + marker.stamp % 3)
                        marker.commit()
            self.assertEqual(raised.exception.name, name)
            self.assertIn(raised.exception.number, FULL)
            self.assertEqual(index.sessions(), [])
            before = index.column()
            with index:
                index.create(index.values, index.column())
            self.assertEqual((index.column(), index.used()), (before, (40, 0, 0, 4)))

    def test_unknown_number(self):
        """A library newer than the module: the number is there, and no name."""
        why = Refused(99, "begin(0)")
        self.assertEqual((why.number, why.name), (99, "UNKNOWN"))


@needs_library
class Sessions(InFolder):
    """A session as a context manager, and iteration."""

    def setUp(self):
        """An index in memory and one in a file, the same."""
        super().setUp()
        self.both = [Index(), self.opened()]
        for index in self.both:
            index.create(4, [0, 2, None, 0])

    def test_committed_or_dropped(self):
        """What was not committed is dropped, also where the block raises."""
        for index in self.both:
            with index.session() as marker:
                marker.update(0, 1)
                self.assertEqual(index.sessions(), [(0, 0, 4, 1)])
            with self.assertRaisesRegex(ZeroDivisionError, "division"), index.session() as marker:
                marker.update(0, 1 // 0)
            self.assertEqual((index.sessions(), index.used().records), ([], 0))
            with index.session() as marker:
                marker.update(0, 1)
                marker.delete(1)
                marker.insert(3)
                self.assertEqual(marker.commit(), (1, 5))
            self.assertEqual((index.column(), index.sessions()), ([1, None, None, 0, 3], []))

    def test_iteration(self):
        """Every row with its value, and the rows of a value, in the snapshot."""
        for index in self.both:
            with index.session() as early, index.session() as marker:
                marker.update(3, 3)
                marker.commit()
                self.assertEqual(list(early), [(0, 0), (1, 2), (2, None), (3, 0)])
                self.assertEqual((early.rows(0), early.read(3).value, len(early)), ((0, 3), 0, 4))
                self.assertEqual((early.span(0, 2), early.span(2, 3), early.span(3, 3)), ([0, 1, 3], [1], []))
                self.assertEqual(early.query(0), (0, False, (0, 3)))
            with index.session() as late:
                self.assertEqual(dict(late), {0: 0, 1: 2, 2: None, 3: 3})
                self.assertEqual((late.span(0, 2), late.span(2, 3)), ([0, 1], [1, 3]))
                self.assertEqual(late.tidy(3), (2, 1))

    def test_over_is_over(self):
        """A session that ended, or that a create freed, is refused by 5 whoever has its number now."""
        for index in self.both:
            with index.session() as first:
                first.update(0, 1)
                first.commit()
                with index.session() as other:
                    self.assertEqual(other.number, first.number)
                    for call in (first.update, first.span):
                        with self.assertRaises(Refused) as raised:
                            call(0, 2)
                        self.assertEqual(raised.exception.name, "NOT_OPEN")
                    self.assertEqual(index.sessions()[0].length, 0)
            with index.session() as first:
                index.create(4, [0])
                index.begin(first.number)
                self.assertRaises(Refused, first.update, 0, 1)
            self.assertEqual(len(index.sessions()), 1)
            index.abort(0)

    def test_old_session(self):
        """A restarted script meets its old session: dropped, or kept where it asks to."""
        for index in self.both:
            index.begin(5)
            index.update(5, 0, 1)
            with index.session(5, keep=True) as kept:
                self.assertEqual((kept.stamp, index.sessions()[0].length), (0, 1))
                kept.update(1, 1)
                self.assertEqual(kept.commit(), (1, 4))
            index.begin(5)
            index.update(5, 0, 3)
            with index.session(5) as fresh:
                self.assertEqual((fresh.stamp, index.sessions()[0].length), (1, 0))
            with self.assertRaises(Refused):
                index.session(16)

    def test_all_open(self):
        """The sixteenth is the last, and the answer says what to do."""
        index = Index()
        index.create(2, [0])
        opened = [index.session() for _ in range(16)]
        self.assertEqual([session.number for session in opened], list(range(16)))
        self.assertRaisesRegex(kerenvuf.AllOpen, "index.sessions", index.session)
        opened[7].abort()
        self.assertEqual(index.session().number, 7)


@needs_library
class Together(InFolder):
    """Several processes and threads on one file."""

    TAKER = ("index = kerenvuf.Index.open(path, sync=False)\n"
             "mine, stamps = [], []\n"
             "while True:\n"
             "    with index.session() as s:\n"
             "        rows = s.rows(0)\n"
             "        if not rows: break\n"
             "        row = rows[hash((len(mine), sys.argv[1])) % len(rows)]\n"
             "        s.update(row, int(sys.argv[1]))\n"
             "        s.insert(3)\n"
             "        try: stamps.append(s.commit().stamp)\n"
             "        except kerenvuf.Refused as no:\n"
             "            if no.number != kerenvuf.Refusal.CONFLICT: raise\n"
             "        else: mine.append(row)\n"
             "print(mine, ';', stamps)\n")

    def test_two_processes(self):
        """Two take crowns until none is left: each crown goes to one, each commit has its own stamp."""
        index = self.opened(sync=False)
        index.create(4, [0] * 200)
        workers = [self.elsewhere(self.TAKER, str(value)) for value in (1, 2)]
        said = [worker.communicate()[0].split(";") for worker in workers]
        self.assertEqual([worker.returncode for worker in workers], [0, 0])
        taken = [eval(rows) for rows, _ in said]
        stamps = [stamp for _, part in said for stamp in eval(part)]
        self.assertEqual(sorted(taken[0] + taken[1]), list(range(200)))
        self.assertEqual(sorted(stamps), list(range(1, 201)))
        column = index.column()
        self.assertEqual(column[200:], [3] * 200)
        for value, rows in zip((1, 2), taken):
            self.assertEqual([row for row in range(200) if column[row] == value], sorted(rows))

    def test_a_block_keeps_others_out(self):
        """Within `with index:` no other process comes between, also over a create."""
        index = self.opened()
        index.create(4, [0])
        with index:
            waiting = self.elsewhere("index = kerenvuf.Index.open(path)\n"
                                     "with index.session() as s: s.update(0, 2); print(tuple(s.commit()))\n")
            time.sleep(0.5)
            index.create(4, [0, 0])
            with index.session() as marker:
                marker.update(1, 1)
                marker.commit()
            time.sleep(0.2)
            self.assertIsNone(waiting.poll())
            self.assertEqual(index.used().records, 1)
        self.assertEqual(waiting.communicate()[0], "(2, 2)\n")
        self.assertEqual(index.column(), [2, 1])

    def test_a_killed_process_gives_its_lock_back(self):
        """A process that is killed within a block: the lock is free, its session stays open, and can be dropped."""
        index = self.opened()
        index.create(4, [0])
        other = self.elsewhere("index = kerenvuf.Index.open(path)\nindex.begin(9)\n"
                               "index.__enter__(); print('in', flush=True); time.sleep(60)\n")
        self.assertEqual(other.stdout.readline(), "in\n")
        other.send_signal(signal.SIGKILL)
        other.communicate()
        self.assertEqual(index.sessions(), [(9, 0, 1, 0)])
        index.abort(9)

    def test_threads(self):
        """Four threads on one index: every commit counts."""
        index = self.opened(sync=False)
        index.create(4, [0])

        def work(value):
            for _ in range(50):
                with index.session() as marker:
                    marker.insert(value)
                    marker.commit()

        threads = [threading.Thread(target=work, args=(value,)) for value in range(4)]
        for thread in threads:
            thread.start()
        for thread in threads:
            thread.join()
        self.assertEqual(index.used()[:2], (201, 200))
        self.assertEqual([index.column().count(value) for value in range(4)], [51, 50, 50, 50])

    def test_fork(self):
        """An index that is carried over a fork takes a lock of its own, and leaves the parent's session alone."""
        index = self.opened()
        index.create(4, [0])
        with index.session() as marker:
            child = os.fork()
            if child == 0:
                status = 1
                try:
                    with marker:
                        pass
                    with index.session() as own:
                        own.update(0, 2)
                        own.commit()
                    status = 0
                finally:
                    os._exit(status)
            self.assertEqual(os.waitpid(child, 0)[1], 0)
            self.assertEqual([place.number for place in index.sessions()], [marker.number])
        self.assertEqual(index.column(), [2])


@needs_library
class Files(InFolder):
    """What the file is, and files that are none."""

    def test_wrong_files(self):
        """Another size, mark, layout or order of bytes is refused with a sentence, and the file is left as it was."""
        self.opened().create(2, [0, 1])
        with open(self.path, "rb") as file:
            good = file.read()
        cases = ((b"short", "is no file of an index"), (good[:-1], "has 52311 bytes"), (good + b"\0", "has 52313 bytes"),
                 (b"X" + good[1:], "is no file of an index"), (good[:16] + b"\x1c\0\0\0" + good[20:], "with tables of"),
                 (good[:8] + b"\2\0\0\0" + good[12:], "layout 2, and this module knows layout 1"),
                 (good[:12] + b"\1\2\3\4" + good[16:], "the other order of bytes"))
        for place, (data, sentence) in enumerate(cases):
            path = os.path.join(self.folder, str(place))
            with open(path, "wb") as file:
                file.write(data)
            with self.assertRaisesRegex(WrongFile, sentence):
                Index.open(path)
            with open(path, "rb") as file:
                self.assertEqual(file.read(), data)
                fcntl.flock(file, fcntl.LOCK_EX | fcntl.LOCK_NB)

    def test_header(self):
        """The header as docs/INTERFACE.md has it."""
        self.opened()
        with open(self.path, "rb") as file:
            data = file.read()
        self.assertEqual(data[:8], b"KERENVUF")
        self.assertEqual(list(memoryview(data[8:44]).cast("I")), [1, 0x01020304, 24, 1152, 24576, 128, 8192, 16384, 1792])
        self.assertEqual((data[44:64], len(data)), (bytes(20), 52312))

    def test_create_is_whole_or_not(self):
        """A create that cannot finish leaves the file as it was, and nothing beside it."""
        index = self.opened()
        index.create(2, [0, 1])
        with mock.patch("os.rename", side_effect=OSError("no")), self.assertRaises(OSError):
            index.create(2, [1, 1])
        self.assertEqual((index.column(), os.listdir(self.folder)), ([0, 1], ["crowns.kv"]))
        os.chmod(self.path, 0o640)
        index.create(2, [1, 1])
        self.assertEqual((index.column(), os.stat(self.path).st_mode & 0o777), ([1, 1], 0o640))

    def test_killed_in_create(self):
        """Whoever is killed while it creates leaves the rows of one column, and no others."""
        index = self.opened()
        for turn in range(15):
            index.create(4, [3] * 2048)
            child = os.fork()
            if child == 0:
                while True:
                    index.create(4, [1] * 2048)
                    index.create(4, [2] * 2048)
            time.sleep(0.005 + 0.002 * turn)
            os.kill(child, signal.SIGKILL)
            os.waitpid(child, 0)
            self.assertEqual(len(set(index.column())), 1)

    def test_save_and_bring_back(self):
        """A copy is an index of its own, and takes the file's place by a rename, under the feet of whoever has it open."""
        index = self.opened()
        index.create(2, [0, 1])
        copy = os.path.join(self.folder, "copy.kv")
        index.save(copy)
        with index.session() as marker:
            marker.update(0, 1)
            marker.commit()
        self.assertEqual(self.opened(copy).column(), [0, 1])
        self.assertEqual(index.column(), [1, 1])
        os.rename(copy, self.path)
        self.assertEqual(index.column(), [0, 1])

    def test_link_and_removed(self):
        """Through a link the file behind it is meant; a file that was removed is no new one."""
        link = os.path.join(self.folder, "link")
        os.symlink(self.path, link)
        index = self.opened(link)
        index.create(2, [1])
        self.assertTrue(os.path.islink(link))
        self.assertEqual(self.opened().column(), [1])
        os.unlink(self.path)
        self.assertRaises(FileNotFoundError, index.begin, 0)
        index.close()
        self.assertRaisesRegex(ValueError, "closed", index.begin, 0)

    def test_damaged(self):
        """A cell changed by hand is number 2, at every call but create."""
        index = self.opened()
        index.create(2, [0, 1])
        with open(self.path, "r+b") as file:
            file.seek(64 + 8)
            file.write(b"\x09")
        with self.assertRaises(Refused) as raised:
            index.begin(0)
        self.assertEqual(raised.exception.name, "DAMAGED")
        index.create(2, [0, 1])
        self.assertEqual(index.begin(0), (0, 2))


class Library(unittest.TestCase):
    """What is said where the library is not to be had."""

    def unavailable(self, sentence):
        """No index can be made, and the reason is said."""
        with mock.patch.object(kerenvuf, "_library", None):
            self.assertRaisesRegex(kerenvuf.Unavailable, sentence, Index)
            self.assertRaisesRegex(kerenvuf.Unavailable, sentence, Index.open, "/nowhere/crowns.kv")

    def test_arm(self):
        """Another processor."""
        with mock.patch("platform.machine", return_value="aarch64"):
            self.unavailable("the library is for x86-64 and this machine is aarch64: use the step program, as examples/marking.py does")

    def test_not_built(self):
        """Not built, or no library."""
        with mock.patch("platform.machine", return_value="x86_64"), mock.patch.dict(os.environ, KERENVUF_LIBRARY="/nowhere/lib.so"):
            self.unavailable("no library at /nowhere/lib.so: python/build makes it")
        with mock.patch("platform.machine", return_value="x86_64"), mock.patch.dict(os.environ, KERENVUF_LIBRARY=__file__):
            self.unavailable("cannot be used")

    def test_marking_needs_none(self):
        """The example over the program loads no library."""
        script = os.path.join(ROOT, "examples", "marking.py")
        run = subprocess.run([sys.executable, "-B", script], capture_output=True, text=True, check=False,
                             env=dict(os.environ, KERENVUF_LIBRARY="/nowhere/lib.so"))
        self.assertEqual((run.returncode, run.stderr), (0, ""))


if __name__ == "__main__":
    if platform.machine() != "x86_64":
        print(WHY)
    unittest.main()
