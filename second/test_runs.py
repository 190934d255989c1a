"""The generated runs: they are determined by their seeds, keep the tables sound, and show every refusal number."""

import os
import subprocess
import sys
import unittest
from collections import Counter

HERE = os.path.dirname(os.path.abspath(__file__))
sys.path.insert(0, HERE)

import compare
import replay
import runs
import steps
from damaged import damaged
from rules import Index
from test_second import PRINTED_INPUT, PRINTED_OUTPUT


def cells(index):
    """All that the tables hold, to compare by."""
    sessions = [session and (session.stamp, session.rows, tuple(session.list)) for session in index.sessions]
    return (index.C, index.first_rows, index.stamp, index.rows,
            tuple(index.slots), tuple(index.heads), tuple(index.log), sessions)


class Generators(unittest.TestCase):
    """Every kind."""

    def test_a_seed_determines_the_run(self):
        for kind in runs.KINDS:
            self.assertEqual(runs.input_of(kind, 500, 7), runs.input_of(kind, 500, 7))
            self.assertNotEqual(runs.input_of(kind, 500, 7), runs.input_of(kind, 500, 8))

    def test_as_many_lines_as_asked(self):
        for kind in runs.KINDS:
            for seed in (2, 3):
                self.assertEqual(len(compare.check_run(kind, 400, seed, None)), 400)

    def test_the_tables_stay_sound_and_a_refusal_changes_nothing(self):
        for kind in runs.KINDS:
            index = Index()
            self.assertTrue(damaged(index))
            for line in runs.lines_of(kind, 1500, 5):
                before = cells(index)
                answer = steps.step(index, line)
                if answer[0] == "no":
                    self.assertEqual(cells(index), before, line[:80])
                self.assertEqual(damaged(index), index.damaged(), line[:80])

    def test_spans_by_replay(self):
        """Between the lines of a run of each kind, every span is what the plain column has."""
        for kind in runs.KINDS:
            asked, given = runs.with_spans(kind, 1500, 6, Index())
            replay.check_transcript(asked, given)
            spans = [answer for line, answer in zip(asked, given) if line.startswith(b"span ") and answer != b"no 19"]
            self.assertGreater(len(spans), 200, kind)
            self.assertTrue(all(answer.startswith(b"ok ") for answer in spans), kind)

    def test_spans_whose_answer_is_another(self):
        """A row left out, one too many, one twice, or in another order."""
        asked = [b"column 3 0 1 2 -", b"begin 0", b"span 0 1 2"]
        replay.check_transcript(asked, [b"ok 4", b"ok 0 4", b"ok 2 1 2"])
        for other in (b"ok 1 1", b"ok 3 0 1 2", b"ok 3 1 1 2", b"ok 2 2 1", b"ok 2 1 3", b"ok 3 1 2", b"ok 2"):
            with self.subTest(other), self.assertRaises(replay.Wrong):
                replay.check_transcript(asked, [b"ok 4", b"ok 0 4", other])
        for line in (b"span 0 2 1", b"span 0 0 3", b"span 1 0 0"):
            with self.subTest(line), self.assertRaises(replay.Wrong):
                replay.check_transcript(asked[:2] + [line], [b"ok 4", b"ok 0 4", b"ok 0"])

    def test_every_number_that_the_step_program_can_give(self):
        seen = Counter()
        for kind in ("mixed", "limits", "bad", "evening"):
            seen.update(map(compare.kind_of_answer, compare.check_run(kind, 12000, 1, None)))
        self.assertEqual([number for number in compare.STEP_NUMBERS if seen["no %d" % number] == 0], [])
        self.assertNotIn("no 1", seen)
        self.assertNotIn("no 10", seen)


class Programs(unittest.TestCase):
    """The files as they are run."""

    def run_file(self, name, *arguments, data=b""):
        """The exit code and the output of one of the files."""
        run = subprocess.run([sys.executable, os.path.join(HERE, name), *arguments], input=data,
                             stdout=subprocess.PIPE, stderr=subprocess.STDOUT, check=False)
        return run.returncode, run.stdout.decode()

    def test_steps(self):
        data = "\n".join(PRINTED_INPUT).encode()
        self.assertEqual(self.run_file("steps.py", data=data), (0, "\n".join(PRINTED_OUTPUT) + "\n"))
        self.assertEqual(self.run_file("steps.py"), (0, ""))

    def test_compare_with_itself(self):
        program = "%s %s" % (sys.executable, os.path.join(HERE, "steps.py"))
        asked = ("--program", program, "--lines", "900", "--seed", "1", "--chunk", "400")
        code, said = self.run_file("compare.py", *asked)
        self.assertEqual((code, said.startswith("900 lines in ")), (0, True), said)

    def test_compare_stops_at_the_first_difference(self):
        for program, shown in (("cat", "line 1\n"), ("true", "(no answer)"), ("false", "ended with 1")):
            asked = ("--program", program, "--lines", "50", "--seed", "9", "--kind", "mixed")
            code, said = self.run_file("compare.py", *asked)
            self.assertEqual((code, shown in said, "seed 9" in said), (1, True, True), said)


if __name__ == "__main__":
    unittest.main()
