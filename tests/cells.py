"""The archive against the second program, at the level of cells: every answer and every cell, after each call.

    python3 tests/cells.py --calls N --seed S [--driver COMMAND | --archive FILE]

Builds tests/cells.c with the archive (target/staticlib/libkerenvuf.a unless told otherwise), makes the calls of second/cells_runs.py
through it, first those that are always the same, and compares with second/cells.py: the answer, every table, the scratch and the list
of rows. Stops at the first difference, with the seed, the call and the cells. On another machine than the archive's see tests/machine.py.
"""

import argparse
import os
import struct
import subprocess
import sys
import tempfile
from array import array
from collections import Counter

HERE = os.path.dirname(os.path.abspath(__file__))
ROOT = os.path.dirname(HERE)
sys.path.insert(0, os.path.join(ROOT, "second"))

import cells_runs  # noqa: E402
import machine  # noqa: E402

CALLS = ("create", "begin", "query", "read", "update", "delete", "insert", "commit", "tidy", "abort", "span", "picked")
# 01's table of refusals, by call, and those of 02's requests: a run of ten thousand calls is to reach each
REFUSALS = {"create": (1, 3), "begin": (1, 2, 4), "query": (1, 2, 4, 5, 6, 10), "read": (1, 2, 4, 5, 7), "update": (1, 2, 4, 5, 6, 7, 8, 9),
            "delete": (1, 2, 4, 5, 7, 8, 9), "insert": (1, 2, 4, 5, 6, 9), "commit": (1, 2, 4, 5, 11, 12, 15, 16, 17),
            "tidy": (1, 2, 4, 5, 6, 13, 14, 16, 17, 18), "abort": (1, 2, 4, 5), "span": (1, 2, 4, 5, 6, 20, 21)}
KINDS = {"no": 0, "count": 1, "stamp": 2, "value": 3, "absent": 4, "query": 5}
PART = 32


def numbers(answer):
    """The five numbers of kv_answer that an answer is: refusal, kind, a, b, c."""
    if answer[0] == "no":
        return [answer[1], 0, 0, 0, 0]
    if answer[0] == "part":
        return [0, KINDS["count"], len(answer) - 1, 0, 0]
    rest = list(answer[1:])
    return [0, KINDS[answer[0]], *rest, *[0] * (3 - len(rest))]


def session_bytes(place):
    """The 112 bytes of a session."""
    return (struct.pack("<4I", place.live, place.start, place.rows, place.count)
            + array("H", place.at).tobytes() + array("B", place.to).tobytes())


def list_bytes(row_list):
    """The bytes of a list of rows, with its name."""
    return ("list", array("H", row_list).tobytes())


def tables(t, scratch):
    """Every table's bytes, with its name, in the order of kerenvuf.h."""
    return [("clock", array("I", t.clock).tobytes()), ("slots", array("I", t.slots).tobytes()), ("words", array("Q", t.words).tobytes()),
            ("heads", array("I", t.heads).tobytes()), ("log", array("I", t.log).tobytes()), ("changes", array("I", t.changes).tobytes()),
            ("sessions", b"".join(map(session_bytes, t.sessions))), ("scratch", array("Q", scratch).tobytes())]


SIZES = {"clock": 4, "slots": 4, "words": 8, "heads": 4, "log": 4, "changes": 4, "sessions": 112, "scratch": 8, "list": 2}


class Driver:
    """The program at the other end."""

    def __init__(self, command):
        """Starts it."""
        self.process = subprocess.Popen(command, stdin=subprocess.PIPE, stdout=subprocess.PIPE)
        self.lengths, self.list_length = [], None

    def lend(self, t, scratch):
        """Lends the tables."""
        lent = tables(t, scratch)
        self.lengths = [(name, len(data)) for name, data in lent]
        self.process.stdin.write(b"L" + struct.pack("<8Q", *(len(data) // SIZES[name] for name, data in lent))
                                 + b"".join(data for _, data in lent))

    def lend_list(self, row_list):
        """Lends a list of rows."""
        name, data = list_bytes(row_list)
        self.list_length = (name, len(data))
        self.process.stdin.write(b"R" + struct.pack("<Q", len(row_list)) + data)

    def call(self, name, args):
        """Makes a call: the answer's numbers, whether the guards stand, the tables, the list and the picker's out after it."""
        column = bytes(args[1]) if name == "create" else b""
        given = [args[0]] if name == "create" else list(args)
        given += [0] * (3 - len(given))
        self.process.stdin.write(b"C" + struct.pack("<5Q", CALLS.index(name), *given, len(column)) + column)
        self.process.stdin.flush()
        answer = list(struct.unpack("<6I", self.take(24)))
        after = [(table, self.take(size)) for table, size in (*self.lengths, self.list_length)]
        return answer[:5], answer[5], after, self.take(8 * PART)

    def take(self, size):
        """So many bytes of what it writes."""
        data = self.process.stdout.read(size)
        if len(data) != size:
            raise SystemExit(f"cells: the driver ended early, status {self.process.wait()}")
        return data


def differences(found, wanted):
    """The names of the tables that differ, with the first few cells that do."""
    said = []
    for (name, have), (_, want) in zip(found, wanted):
        if have != want:
            size = SIZES[name] if name != "sessions" else 1
            at = [i for i in range(0, len(want), size) if have[i:i + size] != want[i:i + size]]
            said.append(f"{name}: {len(at)} differ, first at {'byte ' if name == 'sessions' else 'cell '}{at[0] // size}: "
                        f"has {int.from_bytes(have[at[0]:at[0] + size], 'little')}, wants {int.from_bytes(want[at[0]:at[0] + size], 'little')}")
    return said


def compare(driver, seed, count, counts):
    """The calls of one seed, or the fixed ones; a message at the first difference, or None."""
    before, done = [], 0
    driver.lend_list([])
    run = cells_runs.fixed() if seed == "fixed" else cells_runs.steps(seed)
    for step, answer, t, scratch, row_list, why in cells_runs.made(run, count):
        if step[0] == "lend":
            driver.lend(t, scratch)
            before = []
            continue
        if step[0] == "list":
            driver.lend_list(row_list)
            before.append(("list", f"{len(row_list)} cells"))
            continue
        _, name, args = step
        found, guards, after, out = driver.call(name, args)
        done += 1
        before.append((name, args if name != "create" else (args[0], f"{len(args[1])} rows"), answer[:4]))
        wrong = []
        if found != numbers(answer):
            wrong.append(f"answer: has {found}, wants {numbers(answer)}")
        if guards != 1:
            wrong.append("a cell outside the lent tables was written")
        part = list(answer[1:]) if name == "picked" else []
        if out != array("Q", part + [0] * (PART - len(part))).tobytes():
            wrong.append("the picker's words differ")
        wrong += differences(after, [*tables(t, scratch), list_bytes(row_list)])
        counts[name, answer[1] if answer[0] == "no" else answer[0]] += 1
        if why and answer == ("no", 2):
            counts["2", why] += 1
        if wrong:
            told = "\n".join(f"    {line}" for line in before[-12:])
            return f"cells: seed {seed}, call {done} differs\n  " + "\n  ".join(wrong) + f"\n  calls since the tables were lent, the last is this one:\n{told}"
    return None


def build(archive, into):
    """The command of the driver, linked with the archive; the folder of the header is include/."""
    program = os.path.join(into, "cells")
    subprocess.run([machine.CC, *machine.LINKED, "-O1", "-Wall", "-Wextra", "-I", os.path.join(ROOT, "include"), "-o", program,
                    os.path.join(HERE, "cells.c"), archive], check=True)
    return machine.running(program)


def summary(counts):
    """What was reached, a line for each call."""
    for name in (*CALLS, "2"):
        reached = sorted(((what, n) for (call, what), n in counts.items() if call == name), key=str)
        print(f"{'damage' if name == '2' else name}: " + " ".join(f"{what}:{n}" for what, n in reached))
    missing = [f"{name} {number}" for name, numbers_ in REFUSALS.items() for number in numbers_ if (name, number) not in counts]
    print("never refused:", ", ".join(missing) or "none; every refusal of every call was given")


def main():
    """Compares, and ends with status 1 at a difference."""
    parser = argparse.ArgumentParser()
    parser.add_argument("--calls", type=int, default=10000)
    parser.add_argument("--seed", type=int, default=1)
    parser.add_argument("--each", type=int, default=1000, help="calls made from one seed; the next seed is one more")
    parser.add_argument("--archive", default=os.path.join(ROOT, "target", "staticlib", "libkerenvuf.a"))
    parser.add_argument("--driver", nargs="+", help="a command that is the driver, already built")
    given = parser.parse_args()
    counts = Counter()
    with tempfile.TemporaryDirectory() as folder:
        driver = Driver(given.driver or build(given.archive, folder))
        asked = [("fixed", None)]
        asked += [(given.seed + i, min(given.each, given.calls - i * given.each)) for i in range(-(-given.calls // given.each))]
        for seed, count in asked:
            said = compare(driver, seed, count, counts)
            if said:
                print(said)
                driver.process.kill()
                raise SystemExit(1)
        driver.process.stdin.close()
        if driver.process.wait() != 0:
            raise SystemExit("cells: the driver failed")
    summary(counts)
    print(f"cells: the fixed calls and {given.calls} calls from seed {given.seed}, every answer and every cell as the second program has them")


if __name__ == "__main__":
    main()
