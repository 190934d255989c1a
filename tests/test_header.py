"""The header as C99 and C++17 with every warning an error, and the tables of refusals: the header's, the Python module's and the page's
are one, and are the code's. A refusal that is forgotten in one of the places fails here; so do a version and a limit."""

import ast
import os
import re
import subprocess
import sys
import tempfile
import unittest

ROOT = os.path.dirname(os.path.dirname(os.path.abspath(__file__)))
sys.path.insert(0, os.path.join(ROOT, "python"))

import kerenvuf  # noqa: E402
import machine  # noqa: E402

ARCHIVE = os.environ.get("ARCHIVE", os.path.join(ROOT, "target", "staticlib", "libkerenvuf.a"))
STRICT = ["-Wall", "-Wextra", "-Werror", "-pedantic", "-O1"]
LANGUAGES = ([machine.CC, "-std=c99"], [machine.CXX, "-x", "c++", "-std=c++17"])


def page(*path):
    """The text of a file of the project."""
    with open(os.path.join(ROOT, *path)) as file:
        return file.read()


def printed(language, calls):
    """What tests/header.c prints when it is compiled so, a list of lines."""
    with tempfile.TemporaryDirectory() as folder:
        program = os.path.join(folder, "header")
        linked = ["-DCALLS", "-x", "none", ARCHIVE] if calls else []
        source = os.path.join(ROOT, "tests", "header.c")
        subprocess.run([*language, *machine.LINKED, *STRICT, "-I", os.path.join(ROOT, "include"), source, *linked, "-o", program], check=True)
        return subprocess.run(machine.running(program), stdout=subprocess.PIPE, text=True, check=True).stdout.splitlines()


def python_table():
    """The module's refusals."""
    return [(int(refusal), refusal.name, refusal.sentence) for refusal in kerenvuf.Refusal]


def refusals_by_call():
    """The refusals that tests/cells.py is to reach, by call."""
    found = re.search(r"^REFUSALS = (\{.*?\})$", page("tests", "cells.py"), re.M | re.S)
    return ast.literal_eval(found[1])


class Header(unittest.TestCase):
    """The header compiles, and says what the module says."""

    def test_asks_for_two_functions(self):
        """Of the C library the archive asks for two functions, as docs/INTERFACE.md says."""
        named = subprocess.run(["nm", "-u", ARCHIVE], stdout=subprocess.PIPE, text=True, check=True).stdout
        asked = sorted({line.split()[-1] for line in named.splitlines() if line.split()[:1] == ["U"]})
        self.assertEqual(asked, ["memcpy", "memset"])
        self.assertIn("`memcpy` and `memset` alone", " ".join(page("docs", "INTERFACE.md").split()))

    def test_names_and_sizes(self):
        """In both languages: the refusals, the tables, the version."""
        for language in LANGUAGES:
            said = printed(language, calls=False)
            table = [line[len("refusal "):].split("|") for line in said if line.startswith("refusal ")]
            self.assertEqual([(int(number), name, sentence) for number, name, sentence, _ in table], python_table())
            self.assertEqual([number for number, _, _, _ in table], [value for _, _, _, value in table])
            self.assertIn("none ACCEPTED, UNKNOWN", said)
            tables = [line.split()[1:] for line in said if line.startswith("table ")]
            wanted = [[name, str(size), str(length), str(kerenvuf.OFFSETS[name])] for name, size, length in kerenvuf.TABLES]
            self.assertEqual(tables, wanted)
            self.assertIn(f"all {kerenvuf.SIZE}", said)
            self.assertIn(f"list {kerenvuf.LIMITS.rows}", said)
            self.assertIn(f"version {kerenvuf.VERSION} {kerenvuf.VERSION} layout {kerenvuf.LAYOUT}", said)

    def test_calls(self):
        """A null pointer with length 0: a table 1, a scratch 10, a column one of no rows, a list one of no cells, the picker 0. Then a
        span of one row."""
        wanted = ["create of no column 0 rows 0", "begin 0", "query without a scratch 10", "span of no rows without a list 0 rows 0",
                  *(f"begin without table {place} 1" for place in range(7)), "create of nothing 1", "picked of nothing 0",
                  "span without a list SHORT_LIST", "span the wrong way round BACKWARD", "span without a table 1", "lists 7 7",
                  "span 0 1 1, lists 1 7"]
        for language in LANGUAGES:
            self.assertEqual(printed(language, calls=True)[-len(wanted):], wanted)


class Places(unittest.TestCase):
    """Every place that names the refusals names the same."""

    def test_lines_page(self):
        """docs/LINES.md: number, name and sentence, a row each."""
        rows = re.findall(r"^\| (\d+) \| `(\w+)` \| (.*?) \|", page("docs", "LINES.md"), re.M)
        self.assertEqual([(int(number), name, sentence) for number, name, sentence in rows], python_table())

    def test_code(self):
        """The code's enum of refusals, by name and number."""
        rows = re.findall(r"^ *(\w+) = (\d+),$", page("crates", "tables", "src", "refusal.rt"), re.M)
        named = [(int(number), re.sub(r"(?<!^)(?=[A-Z])", "_", name).upper()) for name, number in rows]
        self.assertEqual(named, [(number, name) for number, name, _ in python_table()])

    def test_by_call(self):
        """The calls that give each refusal: the page's column, and those that tests/cells.py is to reach."""
        reached = refusals_by_call()
        with_session = set(reached) - {"create"}
        words = {"C only": None, "all but column": with_session, "all with a session": with_session,
                 "all with a session but begin": with_session - {"begin"}, "the program": set()}
        for number, by in re.findall(r"^\| (\d+) \| `\w+` \| .*? \| (.*?) \|", page("docs", "LINES.md"), re.M):
            calls = words[by] if by in words else {"create" if word == "column" else word for word in by.split(", ")}
            if calls is not None:
                self.assertEqual(calls, {call for call, numbers in reached.items() if int(number) in numbers}, number)

    def test_versions(self):
        """The newest version of CHANGELOG.md is the header's and the module's."""
        self.assertEqual(re.search(r"^## (\S+)", page("CHANGELOG.md"), re.M)[1], kerenvuf.VERSION)

    def test_limits(self):
        """The README and the page of lines state every limit; the module has those of the tables."""
        for name in ("README.md", os.path.join("docs", "LINES.md")):
            for limit in ("2,048 rows", "32 values", "512 records", "2,048 changes", "96 slots", "16 sessions", "32 entries"):
                self.assertTrue(limit in page(name), (limit, name))
        self.assertEqual(kerenvuf.LIMITS, (2048, 512, 2048, 96))


if __name__ == "__main__":
    unittest.main()
