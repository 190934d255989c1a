"""The examples: what they print is as written beside them, on the second program or on the program that STEPS names; the one in C
over the archive that ARCHIVE names. They work from any folder and through a link, and stop with one line where they cannot go on."""

import contextlib
import io
import os
import platform
import re
import shutil
import subprocess
import sys
import tempfile
import time
import unittest

ROOT = os.path.dirname(os.path.dirname(os.path.abspath(__file__)))
EXAMPLES = os.path.join(ROOT, "examples")
PROGRAM = os.environ.get("STEPS", "").split()
SECOND = [sys.executable, "-B", os.path.join(ROOT, "second", "steps.py")]
sys.path.insert(0, EXAMPLES)

import machine  # noqa: E402
import marking  # noqa: E402


def wanted(name):
    """What an example is to print."""
    with open(os.path.join(EXAMPLES, name)) as file:
        return file.read()


def ran(command, **more):
    """A command that was run: its status, what it printed and what it said on standard error."""
    return subprocess.run(command, capture_output=True, text=True, check=False, **more)


def printed(command, **more):
    """What a command prints that is to end well."""
    run = ran(command, **more)
    if run.returncode != 0:
        raise AssertionError(f"{command} ended with {run.returncode}: {run.stderr}")
    return run.stdout


def script(name):
    """The command of a Python example."""
    return [sys.executable, "-B", os.path.join(EXAMPLES, name)]


class Examples(unittest.TestCase):
    """What each example prints."""

    def test_marking(self):
        """An evening of marking, by a script that waits for each answer."""
        self.assertEqual(printed([*script("marking.py"), *PROGRAM]), wanted("marking.out"))

    def test_season(self):
        """A portal of one crown a commit, which is full in its 171st crown and goes on."""
        self.assertEqual(printed([*script("season.py"), *PROGRAM]), wanted("season.out"))

    def test_evening(self):
        """The worked example, which the README prints line by line."""
        shown = printed([os.path.join(EXAMPLES, "evening"), *(PROGRAM or SECOND)])
        self.assertEqual(shown, wanted("evening.out"))
        with open(os.path.join(ROOT, "README.md")) as file:
            page = file.read()
        for line in shown.splitlines():
            self.assertTrue(line.rstrip() in page, line)

    def test_readme_has_the_code(self):
        """What the README shows of marking.py stands in marking.py."""
        with open(os.path.join(ROOT, "README.md")) as page, open(os.path.join(EXAMPLES, "marking.py")) as file:
            shown = re.search(r"^    def mark\(.*?\n\n", page.read(), re.M | re.S)[0]
            code = [line.strip() for line in file]
        for line in shown.splitlines():
            self.assertIn(line.split("  #")[0].strip(), code)

    @unittest.skipUnless("ARCHIVE" in os.environ and platform.machine() == "x86_64", "ARCHIVE names no archive, or the library cannot be loaded here")
    def test_over_the_library(self):
        """The same evening and season over the library, where the worklist is one call."""
        for name in ("marking", "season"):
            self.assertEqual(printed([*script(name + ".py"), "--library"]), wanted(name + ".out"))

    def test_without_the_library(self):
        """Where there is no library, one line says so; over a program the worklist is merged from queries, and is the same."""
        run = ran([*script("marking.py"), "--library"], env=dict(os.environ, KERENVUF_LIBRARY="/nowhere/lib.so"))
        self.assertEqual((run.returncode, run.stdout, run.stderr.count("\n")), (1, "", 1))
        self.assertRegex(run.stderr, "^marking.py: (no library at /nowhere/lib.so|the library is for x86-64)")
        index = marking.Index(PROGRAM or SECOND[:1] + ["-u"] + SECOND[1:])
        self.addCleanup(index.close)
        index.ask("column", 4, 2, 0, None, 1, 3, 0)
        index.ask("begin", 0)
        self.assertEqual([index.span(0, 0, 1), index.span(0, 1, 3), index.span(0, 0, 0), index.span(0, 0, 3)],
                         [[1, 3, 5], [0, 3, 4], [1, 5], [0, 1, 3, 4, 5]])
        self.assertEqual(marking.worklist(index), [1, 3, 5])

    @unittest.skipUnless("ARCHIVE" in os.environ, "ARCHIVE names no archive")
    def test_marking_in_c(self):
        """The same evening over the archive."""
        with tempfile.TemporaryDirectory() as folder:
            program = os.path.join(folder, "marking")
            subprocess.run([machine.CC, *machine.LINKED, "-std=c99", "-Wall", "-Wextra", "-Werror", "-pedantic", "-O2", "-I", os.path.join(ROOT, "include"),
                            os.path.join(EXAMPLES, "marking.c"), os.environ["ARCHIVE"], "-o", program], check=True)
            self.assertEqual(printed(machine.running(program)), wanted("marking.out"))


class Survive(unittest.TestCase):
    """Any folder, a link, a relative program; and one line where something is missing."""

    def setUp(self):
        """A folder elsewhere, with a space in its name."""
        self.folder = tempfile.mkdtemp(prefix="ex amples")
        self.addCleanup(shutil.rmtree, self.folder)

    def stops(self, command, words, **more):
        """A command that stops with one line on standard error, which has these words."""
        run = ran(command, **more)
        self.assertNotEqual(run.returncode, 0)
        self.assertEqual(run.stderr.count("\n"), 1, run.stderr)
        self.assertIn(words, run.stderr)
        self.assertEqual(run.stdout, "")

    def test_evening_from_elsewhere(self):
        """Through a link, from another folder, with a program named from there."""
        link, program = os.path.join(self.folder, "evening"), os.path.join(self.folder, "program")
        os.symlink(os.path.join(EXAMPLES, "evening"), link)
        with open(program, "w") as file:
            file.write(f'#!/bin/sh\nexec {" ".join(SECOND)}\n')
        os.chmod(program, 0o755)
        self.assertEqual(printed(["./evening", "./program"], cwd=self.folder), wanted("evening.out"))
        self.assertEqual(printed(["./evening", "--second"], cwd=self.folder), wanted("evening.out"))

    def test_without_the_kit(self):
        """No rt: one line. The path has the tools and nothing else."""
        for name in ("bash", "sed", "paste", "dirname", "readlink", "cat", "wc", "grep", "cc", "uname", "find", "mkdir"):
            os.symlink(shutil.which(name), os.path.join(self.folder, name))
        bare, words = dict(os.environ, PATH=self.folder), "rt, the command of the Rattle kit, is not on the PATH"
        for command in (["evening"], ["steps"], ["prove", "steps"]):
            self.stops([os.path.join(EXAMPLES, command[0]), *command[1:]], words, env=bare)

    def test_help(self):
        """Each command says how it is used."""
        for name in ("examples/evening", "examples/steps", "examples/prove", "python/build"):
            self.assertIn("usage: " + name, printed([os.path.join(ROOT, name), "--help"]))
        for name in ("marking.py", "season.py"):
            self.assertIn("usage: python3 examples/" + name, printed([*script(name), "--help"]))

    def test_evening_of_no_program(self):
        """A program that is not there, ends badly or answers something else."""
        evening = os.path.join(EXAMPLES, "evening")
        self.stops([evening, "./nowhere"], "no program to run: ./nowhere")
        self.stops([evening, "false"], "the program ended with status 1: false")
        self.stops([evening, "true"], "the program answered 0 of 33 lines: true")
        self.stops([evening, "cat"], "the program answered 0 of 33 lines: cat")
        self.stops([evening, "--nothing"], "no such option")

    def test_marking_of_no_program(self):
        """A script over such a program says so, and hangs nowhere."""
        self.stops([*script("marking.py"), "./nowhere"], "the program cannot be started")
        self.stops([*script("marking.py"), "false"], "the program ended with status 1 before it answered 'column 4 0 0 2': false")
        self.stops([*script("marking.py"), "cat"], "this is no answer to 'column 4 0 0 2'")
        self.stops([*script("season.py"), "true"], "the program ended with status 0 before it answered 'column 4': true")

    def test_marking_of_a_silent_program(self):
        """A program that says nothing is waited for so many seconds."""
        index = marking.Index(["sleep", "60"], patience=0.2)
        self.addCleanup(index.close)
        self.addCleanup(index.program.kill)
        with self.assertRaisesRegex(marking.NoAnswer, "no answer to 'begin 0' within 0.2 seconds from sleep 60"):
            index.ask("begin", 0)


class Proving(unittest.TestCase):
    """examples/prove in a small project, over a stand-in for rt that notes what it is asked."""

    RT = """#!/bin/sh
crate=${PWD##*/}
echo "$1 $crate" >>../../calls
if [ -e "../../broken-$crate" ]; then echo "line 7: it is broken"; exit 1; fi
mkdir -p out
case $crate in steps) : >out/steps ;; kerenvuf) : >out/libkerenvuf.a ;; esac
echo "crate $crate: modules loaded=0 checked=1"
"""

    def setUp(self):
        """A project of six crates, of which the program needs four."""
        self.folder = tempfile.mkdtemp()
        self.addCleanup(shutil.rmtree, self.folder)
        self.write("crates.txt", "# bottom up\nbits:\nrules: bits\ntext: check bits\nindex: rules\nsteps: rules text io\nkerenvuf staticlib: index\n")
        for crate in ("bits", "rules", "text", "index", "steps", "kerenvuf"):
            self.write(f"crates/{crate}/src/lib.rt", "")
        self.write("bin/rt", self.RT)
        self.write("examples/prove", wanted("prove"))
        self.env = dict(os.environ, PATH=os.path.join(self.folder, "bin") + ":" + os.environ["PATH"])
        self.env.pop("RT_JOBS", None)

    def write(self, name, text):
        """A file of the project, written a moment ago."""
        path = os.path.join(self.folder, name)
        os.makedirs(os.path.dirname(path), exist_ok=True)
        with open(path, "w") as file:
            file.write(text)
        os.chmod(path, 0o755)
        return path

    def prove(self, name="steps"):
        """The run, and what rt was asked meanwhile."""
        calls = self.write("calls", "")
        run = ran([os.path.join(self.folder, "examples", "prove"), name], env=self.env, cwd="/")
        with open(calls) as file:
            return run, file.read().splitlines()

    def test_what_it_stands_on(self):
        """The crates that are needed, each after those it needs; then none, until a source changes."""
        run, calls = self.prove()
        self.assertEqual((run.returncode, sorted(calls)), (0, ["check bits", "check rules", "check text", "run steps"]))
        self.assertEqual((calls[0], calls[-1]), ("check bits", "run steps"))
        self.assertIn("proved crate 4 of 4: steps", run.stderr)
        self.assertEqual(self.prove()[1], [])
        later = self.write("crates/text/src/lib.rt", "fn more() {}")
        os.utime(later, (time.time() + 5, time.time() + 5))
        self.assertEqual(len(self.prove()[1]), 4)
        _, calls = self.prove("kerenvuf")
        self.assertEqual(calls, ["check bits", "check rules", "check index", "lib kerenvuf"])

    def test_removed(self):
        """What is built is built anew where it was removed, and where a source was."""
        self.prove()
        os.unlink(os.path.join(self.folder, "target", "bin", "steps"))
        self.assertEqual(len(self.prove()[1]), 4)
        time.sleep(0.05)
        os.unlink(os.path.join(self.folder, "crates", "text", "src", "lib.rt"))
        self.assertEqual(len(self.prove()[1]), 4)

    def test_broken(self):
        """A crate that is not proved: what was said of it, one line, and none that stands on it is tried."""
        self.write("broken-rules", "")
        run, calls = self.prove()
        self.assertEqual(run.returncode, 1)
        self.assertIn("line 7: it is broken", run.stderr)
        self.assertIn("examples/prove: rules is not proved", run.stderr)
        self.assertNotIn("run steps", calls)
        os.unlink(os.path.join(self.folder, "broken-rules"))
        self.assertEqual(self.prove()[0].returncode, 0)

    def test_two_at_once(self):
        """Two at the same time: one proves, the other waits and finds it done."""
        self.write("calls", "")
        command = [os.path.join(self.folder, "examples", "prove"), "steps"]
        both = [subprocess.Popen(command, env=self.env, stderr=subprocess.DEVNULL) for _ in range(2)]
        self.assertEqual([one.wait() for one in both], [0, 0])
        with open(os.path.join(self.folder, "calls")) as file:
            self.assertEqual(len(file.read().splitlines()), 4)


class Night(unittest.TestCase):
    """What a script does where the index is full, and where it meets its old session."""

    def setUp(self):
        """The program, with a column."""
        self.index = marking.Index(PROGRAM or SECOND[:1] + ["-u"] + SECOND[1:])
        self.addCleanup(self.index.close)
        self.index.ask("column", 4, *[marking.HANDED_IN] * 40)
        self.turn = 0

    def commits(self, rows, count):
        """So many commits of these rows, back and forth."""
        for _ in range(count):
            self.turn += 1
            marking.open_anew(self.index, 0)
            for row in rows:
                self.index.ask("update", 0, row, marking.IN_HAND if self.turn % 2 else marking.HANDED_IN)
            self.index.ask("commit", 0)

    def tidied(self):
        """What the night prints."""
        with contextlib.redirect_stdout(io.StringIO()) as said:
            marking.night(self.index)
        return said.getvalue()

    def full(self, sentence):
        """The night creates again where there is no room, and every row holds what it held."""
        before = marking.every_row(self.index)
        self.assertEqual(self.tidied(), f"  {sentence}: created again, 40 rows\n")
        self.assertEqual(marking.every_row(self.index), before)
        self.assertEqual(self.index.ask("begin", 3), [0, 40])

    def test_records(self):
        """16 at night."""
        self.commits([4], 1)
        self.commits([3], 511)
        self.full("there are 512 records already")

    def test_changes(self):
        """17 at night."""
        self.commits(range(32), 63)
        self.commits([33], 1)
        self.full("the changes would pass 2048")

    def test_slots(self):
        """18 at night: 92 tidies are 92 slots more."""
        for _ in range(92):
            self.commits([0], 1)
            marking.open_anew(self.index, 15)
            self.index.ask("tidy", 15, marking.HANDED_IN)
        self.commits([0], 1)
        self.full("there are 96 slots already")

    def test_old_session(self):
        """A restarted script does not commit what it listed before."""
        self.index.ask("begin", 0)
        self.index.ask("update", 0, 7, marking.PASSED)
        self.assertEqual(marking.hand_in(self.index, 0, 1), [40])
        self.assertEqual(marking.every_row(self.index)[7], marking.HANDED_IN)


if __name__ == "__main__":
    unittest.main()
