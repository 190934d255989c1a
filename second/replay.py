"""Demand 3 checked on a transcript: every accepted query and read shows the column as it was at the session's opening.

It never looks at a log, a version or a flip set. It keeps the first column, the accepted requests of each session and
the accepted commits and tidies, replays these in stamp order on a plain list, and says what each accepted call has to
answer. What a tidy moved is told plainly as well: for each value it keeps the rows that its newest accepted tidy left
in its vector (at first the first column's rows of it), and the moved rows at s are those that are in one of this set
and the rows holding the value at s, and not in the other.

    python3 second/replay.py INPUT OUTPUT

A span has no word in the step program; the tests put spans into their transcripts, as `span session first last` with the
answer `ok count row row ..`.
"""

import sys

DUE_ABOVE = 8
ABSENT = None


class Wrong(Exception):
    """An answer that the replay contradicts."""


class Opened:
    """An open session: the stamp of its opening, the rows it listed with their targets, the values it inserted."""

    def __init__(self, start):
        """Opens it at a stamp, with nothing listed."""
        self.start = start
        self.targets = {}
        self.inserts = []

    def length(self):
        """The list's length."""
        return len(self.targets) + len(self.inserts)


class Replay:
    """The columns replayed so far; `check` takes the transcript's lines in turn."""

    def __init__(self):
        """Nothing is replayed before the first accepted column."""
        self.columns = []  # columns[k] is the column after k accepted commits and tidies
        self.named = []  # named[k] is the set of rows that the k-th listed, inserted or moved
        self.left = []  # left[v] has (stamp, rows) for the first column and each accepted tidy of v
        self.sessions = {}
        self.plain_calls = {
            b"column": self.column, b"begin": self.begin, b"query": self.query, b"span": self.span, b"read": self.read,
            b"update": self.update, b"delete": self.delete, b"insert": self.insert, b"abort": self.abort,
        }

    def check(self, line, answer):
        """Checks one line with its answer; raises Wrong."""
        if answer == b"no 19":
            return
        require(accepted(answer) or answer.startswith(b"no "), "no answer")
        word, *fields = line.split(b" ")
        try:
            numbers = [ABSENT if field == b"-" else number(field) for field in fields]
            if word == b"commit":
                self.commit(answer, *numbers)
            elif word == b"tidy":
                self.tidy(answer, *numbers)
            elif accepted(answer):
                expect(answer, *self.plain_calls[word](*numbers))
        except (KeyError, IndexError, TypeError, ValueError) as error:
            raise Wrong("it names nothing that there is: %r" % error) from error

    def holding(self, value, stamp):
        """The rows that hold the value after the commits up to a stamp."""
        return {row for row, held in enumerate(self.columns[stamp]) if held == value}

    def left_at(self, value, stamp):
        """The rows that the newest tidy of the value up to a stamp left in its vector."""
        return [rows for tidied, rows in self.left[value] if tidied <= stamp][-1]

    def moved(self, value, stamp):
        """The rows that a tidy of the value from a start has to move."""
        return self.left_at(value, stamp) ^ self.holding(value, stamp)

    def named_since(self, start):
        """All rows that accepted commits and tidies named since a start."""
        return set().union(*self.named[start + 1:])

    def stale(self, value, start):
        """Whether a tidy was overtaken: the value was tidied, a moved row was named, or a row came to differ in it."""
        if self.left[value][-1][0] > start or self.named_since(start) & self.moved(value, start):
            return True
        left = self.left_at(value, start)
        for stamp in range(start + 1, len(self.columns)):
            column = self.columns[stamp]
            if any((column[row] == value) != (row in left) for row in self.named[stamp]):
                return True
        return False

    # The calls that answer without a record: each returns what it has to answer.

    def column(self, C, *column):
        """Starts over."""
        self.columns = [list(column)]
        self.named = [set()]
        self.left = [[(0, self.holding(value, 0))] for value in range(C)]
        self.sessions = {}
        return [len(column)]

    def begin(self, session):
        """Opens the session where the replay stands, if it isn't open."""
        opened = self.sessions.setdefault(session, Opened(len(self.columns) - 1))
        return [opened.start, len(self.columns[opened.start])]

    def query(self, session, value):
        """The rows that held the value at the opening; the rows moved since the newest tidy count as flipped."""
        start = self.sessions[session].start
        rows = sorted(self.holding(value, start))
        count = len(self.moved(value, start))
        return [count, 1 if count > DUE_ABOVE else 0, len(rows), *rows]

    def span(self, session, first, last):
        """The rows that held one of the values at the opening: in the plain column a row stands once, in its place."""
        require(first <= last < len(self.left), "a span that is none was accepted")
        column = self.columns[self.sessions[session].start]
        rows = [row for row, held in enumerate(column) if held is not ABSENT and first <= held <= last]
        return [len(rows), *rows]

    def read(self, session, row):
        """What the row held at the opening."""
        return [self.columns[self.sessions[session].start][row]]

    def update(self, session, row, value):
        """Lists a row that stands present, with a value below C."""
        require(value < len(self.left), "a value not below C was accepted")
        return self.change(session, row, value)

    def delete(self, session, row):
        """Lists a row that stands present."""
        return self.change(session, row, ABSENT)

    def change(self, session, row, target):
        """Lists the row with its target, where it stands if it is listed already."""
        opened = self.sessions[session]
        standing = opened.targets.get(row, self.columns[opened.start][row])
        require(standing is not ABSENT, "a change of a row that stands absent was accepted")
        opened.targets[row] = target
        return [opened.length()]

    def insert(self, session, value):
        """Lists an insert of a value below C."""
        require(value < len(self.left), "a value not below C was accepted")
        opened = self.sessions[session]
        opened.inserts.append(value)
        return [opened.length()]

    def abort(self, session):
        """Drops the session's list."""
        return [self.sessions.pop(session).length()]

    # The calls that write a record: their refusals by 12, 13 and 14 are checked as well as their answers.

    def commit(self, answer, session):
        """A commit with something listed is refused by 12 exactly if one of its rows was named since the opening."""
        opened = self.sessions.get(session)
        if opened is None or opened.length() == 0:
            require(answer != b"no 12" and not accepted(answer), "there is nothing to commit")
            return
        conflict = not self.named_since(opened.start).isdisjoint(opened.targets)
        require((answer == b"no 12") == conflict, "a conflict: %s" % conflict)
        if accepted(answer):
            column = list(self.columns[-1])
            for row, target in opened.targets.items():
                column[row] = target
            column += opened.inserts
            inserted = range(len(self.columns[-1]), len(column))
            expect(answer, len(self.columns), len(column))
            self.columns.append(column)
            self.named.append({*opened.targets, *inserted})
            del self.sessions[session]

    def tidy(self, answer, session, value):
        """A tidy is refused by 13 exactly if nothing moved, otherwise by 14 exactly if it was overtaken."""
        opened = self.sessions.get(session)
        if opened is None or value >= len(self.left):
            require(answer not in (b"no 13", b"no 14") and not accepted(answer), "there is nothing to tidy")
            return
        moved = self.moved(value, opened.start)
        require((answer == b"no 13") == (not moved), "the rows to move: %s" % sorted(moved))
        if moved:
            stale = self.stale(value, opened.start)
            require((answer == b"no 14") == stale, "stale: %s" % stale)
        if accepted(answer):
            expect(answer, len(self.columns), len(moved))
            self.left[value].append((len(self.columns), self.holding(value, opened.start)))
            self.columns.append(self.columns[-1])
            self.named.append(moved)


def number(field):
    """The number that a field writes."""
    if not field.isdigit():
        raise ValueError(field)
    return int(field)


def accepted(answer):
    """Whether the answer is ok."""
    return answer.startswith(b"ok ")


def require(condition, what):
    """Raises Wrong unless the condition holds."""
    if not condition:
        raise Wrong(what)


def expect(answer, *numbers):
    """Raises Wrong unless the answer is ok with these numbers."""
    wanted = b" ".join([b"ok", *(b"-" if field is ABSENT else b"%d" % field for field in numbers)])
    require(answer == wanted, "the replay has %s" % wanted.decode())


def check_transcript(input_lines, output_lines):
    """Checks a whole transcript; raises Wrong with the line's number in front."""
    replay = Replay()
    for count, (line, answer) in enumerate(zip(input_lines, output_lines), 1):
        try:
            replay.check(line, answer)
        except Wrong as wrong:
            raise Wrong("line %d, %r answered %r: %s" % (count, line[:80], answer[:80], wrong)) from wrong


def read_lines(path):
    """A file's lines without their newlines."""
    with open(path, "rb") as file:
        return [line.rstrip(b"\n") for line in file]


def main():
    """Checks the transcript in two files."""
    input_lines, output_lines = read_lines(sys.argv[1]), read_lines(sys.argv[2])
    if len(input_lines) != len(output_lines):
        sys.exit("%d input lines, %d output lines" % (len(input_lines), len(output_lines)))
    try:
        check_transcript(input_lines, output_lines)
    except Wrong as wrong:
        sys.exit(str(wrong))
    print("%d lines, and the replay agrees" % len(input_lines))


if __name__ == "__main__":
    main()
