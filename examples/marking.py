"""An evening of marking, over the step program as a co-process: hand in, show the worklist, mark, retry, tidy at night.

    python3 examples/marking.py examples/steps      over the proved program, which is built where it is not there yet
    python3 examples/marking.py                     over the second program, where nothing is built
    python3 examples/marking.py --library           over the library that python/build makes, in this process (x86-64)

Each line that goes in is answered by one line (docs/LINES.md): `ok` and numbers, or `no` and the number of the refusal. A program that
ends, or gives no answer for 30 seconds, stops the script with one line. Over the library the words of the lines are its calls.
"""

import os
import select
import subprocess
import sys

HERE = os.path.dirname(os.path.realpath(__file__))
sys.path.insert(0, os.path.join(HERE, "..", "python"))

import kerenvuf  # noqa: E402  (the names alone: no library is loaded before an index is made)
from kerenvuf import FULL, Refusal, Refused  # noqa: E402

STEPS = os.path.join(HERE, "steps")
SECOND = os.path.join(HERE, "..", "second", "steps.py")
HANDED_IN, IN_HAND, PASSED, REFERRED = range(4)
NAMES = ("handed in", "in hand", "passed", "referred")
READER, NIGHT = 14, 15
PATIENCE = 30


class NoAnswer(Exception):
    """The program cannot be started, ended, or gives no answer."""


class Index:
    """The step program, line by line."""

    def __init__(self, command, patience=PATIENCE):
        """Starts the program; it may take so many seconds for an answer."""
        self.command, self.patience, self.read = command, patience, b""
        try:
            if os.path.exists(command[0]) and os.path.samefile(command[0], STEPS):
                subprocess.run([command[0], "--build"], check=True)
            self.program = subprocess.Popen(command, stdin=subprocess.PIPE, stdout=subprocess.PIPE)
        except subprocess.CalledProcessError as why:
            raise NoAnswer(f"the program was not built: {command[0]} --build ended with status {why.returncode}") from why
        except OSError as why:
            raise NoAnswer(f"the program cannot be started: {why}") from why

    def ask(self, *fields):
        """Sends one line; the numbers of its answer."""
        line = " ".join("-" if field is None else str(field) for field in fields)
        try:
            self.program.stdin.write(line.encode() + b"\n")
            self.program.stdin.flush()
        except BrokenPipeError:
            pass
        word, *numbers = self.answer(line).split(" ")
        if word == "no":
            raise Refused(int(numbers[0]), line)
        return [None if number == "-" else int(number) for number in numbers]

    def span(self, session, first, last):
        """The rows in any state from first to last, ascending. The step program has no word for a span, so each state is queried and the
        rows are merged; the queries are of one session, so that they show one moment. The library has it as one call."""
        return sorted({row for state in range(first, last + 1) for row in held(self, session, state)})

    def answer(self, line):
        """The next line that the program writes."""
        shown = line if len(line) < 40 else line[:40] + ".."
        while b"\n" not in self.read:
            if not select.select([self.program.stdout], [], [], self.patience)[0]:
                raise NoAnswer(f"no answer to {shown!r} within {self.patience} seconds from {' '.join(self.command)}")
            more = os.read(self.program.stdout.fileno(), 65536)
            if not more:
                status = self.program.wait()
                raise NoAnswer(f"the program ended with status {status} before it answered {shown!r}: {' '.join(self.command)}")
            self.read += more
        said, self.read = self.read.split(b"\n", 1)
        said = said.decode(errors="replace")
        if not said.startswith(("ok ", "no ")):
            raise NoAnswer(f"this is no answer to {shown!r}: {said[:40]!r}; is {' '.join(self.command)} the step program?")
        return said

    def kill(self):
        """Stops the program in the middle."""
        self.program.kill()

    def close(self):
        """Ends the program, whatever state it is in."""
        try:
            self.program.stdin.close()
            self.program.wait(timeout=self.patience)
        except (BrokenPipeError, subprocess.TimeoutExpired):
            self.program.kill()
            self.program.wait()
        self.program.stdout.close()


class Library:
    """The index in this process, over the library; asked as the program is."""

    def __init__(self):
        """An index in memory."""
        self.index = kerenvuf.Index()

    def ask(self, word, *fields):
        """Makes the call of a line's word; the numbers of its answer."""
        if word == "column":
            return list(self.index.create(fields[0], fields[1:]))
        if word == "query":
            flips, due, rows = self.index.query(*fields)
            return [flips, int(due), len(rows), *rows]
        return list(getattr(self.index, word)(*fields))

    def span(self, session, first, last):
        """The rows in any state from first to last, ascending: one call."""
        return self.index.span(session, first, last)

    def kill(self):
        """Nothing runs beside this process."""

    def close(self):
        """Lets go of the index."""
        self.index.close()


def open_anew(index, session):
    """Opens a session on a snapshot of this moment. A script that was restarted meets its old session, with what it had listed: `begin`
    would answer the old start, so that one is dropped first."""
    try:
        index.ask("abort", session)
    except Refused as refused:
        if refused.number != Refusal.NOT_OPEN:
            raise
    return index.ask("begin", session)


def hand_in(index, session, count):
    """New crowns, in one commit; the numbers of their rows."""
    open_anew(index, session)
    for _ in range(count):
        index.ask("insert", session, HANDED_IN)
    _, rows = index.ask("commit", session)
    return list(range(rows - count, rows))


def worklist(index, session=READER):
    """The worklist page: the crowns that are handed in or in hand, on a snapshot of this moment."""
    open_anew(index, session)
    rows = index.span(session, HANDED_IN, IN_HAND)
    index.ask("abort", session)
    return rows


def held(index, session, state):
    """The rows in a state, as the session sees them."""
    _, _, count, *rows = index.ask("query", session, state)
    assert count == len(rows)
    return rows


def mark(index, session, wanted):
    """Moves crowns on in one commit: `wanted` is {row: state}. Whoever committed one of them first wins: on a conflict (12) the
    session starts over on a new snapshot, and lists only the crowns that are still in hand. Answers the rows that were moved."""
    while True:
        rows = [row for row in wanted if index.ask("read", session, row) == [IN_HAND]]
        for row in rows:
            index.ask("update", session, row, wanted[row])
        if not rows:
            index.ask("abort", session)
            return []
        try:
            index.ask("commit", session)
            return rows
        except Refused as refused:
            if refused.number != Refusal.CONFLICT:
                raise
            print(f"  session {session}: conflict, once more")
            open_anew(index, session)


def every_row(index, session=READER):
    """The state of every crown at this moment, None where there is none any more."""
    _, rows = open_anew(index, session)
    column = [None] * rows
    for state in range(len(NAMES)):
        for row in held(index, session, state):
            column[row] = state
    index.ask("abort", session)
    return column


def create_again(index):
    """At 16, 17 and 18 the index takes no more. It goes on, with all its room, once it is created again from its own rows, which keep
    their numbers. Every session is freed by it, so this is done when nobody has anything listed: whoever has gets 5 and opens anew."""
    return index.ask("column", len(NAMES), *every_row(index))


def night(index):
    """Every value tidied, each from a snapshot of its own; what has nothing to move, or was overtaken, waits for the next night. Where
    there is no room for a tidy the index is created again, which folds everything."""
    for value, name in enumerate(NAMES):
        open_anew(index, NIGHT)
        try:
            stamp, moved = index.ask("tidy", NIGHT, value)
            print(f"  {name}: {moved} rows folded in at stamp {stamp}")
        except Refused as refused:
            if refused.number in FULL:
                print(f"  {refused.sentence}: created again, {create_again(index)[0]} rows")
                return
            if refused.number not in (Refusal.NOTHING_TO_MOVE, Refusal.STALE):
                raise
            print(f"  {name}: nothing to fold")
        index.ask("abort", NIGHT)


def show(index, session=READER):
    """Where every crown is, on a snapshot of this moment."""
    open_anew(index, session)
    for state, name in enumerate(NAMES):
        print(f"  {name}: {held(index, session, state)}")
    index.ask("abort", session)


def evening(index):
    """Three crowns are there, five are handed in, two markers work at once, and the night tidies."""
    print("column:", index.ask("column", 4, HANDED_IN, HANDED_IN, PASSED)[0], "rows")
    print("handed in: rows", hand_in(index, 0, 5))

    open_anew(index, 1)
    taken = held(index, 1, HANDED_IN)[:4]
    for row in taken:
        index.ask("update", 1, row, IN_HAND)
    print("marker 1 takes", taken, "at stamp and rows", index.ask("commit", 1))
    print("the worklist, handed in or in hand:", worklist(index))

    print("both markers mark, each on a snapshot of the same moment")
    open_anew(index, 1)
    open_anew(index, 2)
    first = mark(index, 1, {taken[0]: PASSED, taken[1]: REFERRED})
    second = mark(index, 2, {taken[1]: PASSED, taken[2]: PASSED, taken[3]: REFERRED})
    print("  marker 1 moved", first)
    print("  marker 2 moved", second)
    print("the worklist, handed in or in hand:", worklist(index))
    show(index)

    print("the night")
    night(index)
    show(index)


def run(work, words):
    """Does a piece of work over the program that the words name, over the second program, or over the library. Where there is no
    library, or the program gives no answer or refuses what the work counts on, the script ends with one line."""
    name = os.path.basename(sys.argv[0])
    if words[:1] in (["-h"], ["--help"]):
        print(f"usage: python3 examples/{name} [PROGRAM [WORD..] | --library]\n\n"
              "The program is the second program, unless another is named: examples/steps is the proved one.\n"
              "--library takes the proved library that python/build makes instead of a program.")
        return
    index = None
    try:
        index = Library() if words == ["--library"] else Index(words or [sys.executable, "-u", SECOND])
        work(index)
    except (NoAnswer, Refused, kerenvuf.Unavailable) as why:
        raise SystemExit(f"{name}: {why}") from None
    finally:
        if index is not None:
            if sys.exc_info()[0] is not None:
                index.kill()
            index.close()


if __name__ == "__main__":
    run(evening, sys.argv[1:])
