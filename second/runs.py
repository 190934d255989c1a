"""Input files for the step program, each determined by its kind, its number of lines and its seed.

A kind is a generator of lines that is sent the second program's answer to each, and steers by it: it learns from the
answers alone how many rows there are, which rows hold a value, and whether a limit is reached.

    python3 second/runs.py KIND LINES SEED > input
"""

import sys
from random import Random

import bad_lines
from limits import SCENES, limits
from lines import answer_line
from making import WORDS, any_column, call_line, column_line, interleave, say
from rules import Index
from steps import step
from tables import ABSENT, MOST_ENTRIES, MOST_ROWS


# Mixed: interleaved sessions.


def fill_list(random, session, C, rows):
    """A session that lists more than its list can hold."""
    yield say("begin", session)
    for _ in range(MOST_ENTRIES + 4):
        if rows > 0 and random.random() < 0.3:
            yield say("update", session, random.randrange(rows), random.randrange(C))
        else:
            yield say("insert", session, random.randrange(C))


def mixed(random):
    """Dense interleavings of up to 16 sessions on few rows and few values, new columns from time to time."""
    while True:
        C = random.randint(1, 6)
        rows = random.randint(0, 40) if random.random() < 0.2 else random.randint(0, 9)
        sessions = random.randint(1, 16)
        yield column_line(C, any_column(random, C, rows))
        for _ in range(random.choice((1, 2, 4, 10))):
            yield from interleave(random, C, rows, sessions, random.randint(20, 150))
            if random.random() < 0.2:
                yield from fill_list(random, random.randrange(sessions), C, rows)


# Bad: lines that cannot be read, and numbers that name nothing.


def out_of_range(random):
    """A readable line with numbers that mostly name no session, row or value there is."""
    numbers = [random.choice((0, 1, 15, 16, 17, 99, 254, 255, 2047, 2048, 9999)) for _ in range(3)]
    if random.random() < 0.7:
        numbers[0] = random.randrange(4)
    return call_line(random.choice(WORDS), numbers)


def bad(random):
    """Bad lines of every kind among good ones; at first calls before any column."""
    for word in random.sample(WORDS, len(WORDS)):
        yield call_line(word, [random.choice((0, 0, 16, 9999))] * 3)
    for _ in range(random.randint(10, 60)):
        yield out_of_range(random) if random.random() < 0.5 else bad_lines.any_line(random)
    good = mixed(random)
    answer = None
    while True:
        choice = random.random()
        if choice < 0.5:
            answer = yield good.send(answer)
        elif choice < 0.6:
            yield out_of_range(random)
        else:
            yield bad_lines.any_line(random)


# Evening: a deadline evening of several colleges.

HANDED_IN = 0


def college(random, session, C):
    """A college: begins, queries a worklist, reads, moves several crowns on to the next state, commits, retries."""
    patient = random.randint(1, 4)
    while True:
        state = random.randrange(C - 1)
        for _ in range(patient):
            yield say("begin", session)
            answer = yield say("query", session, state)
            due, worklist = answer[2] == 1, list(answer[4:])
            if due and random.random() < 0.1:
                yield say("tidy", session, state)
            work = random.sample(worklist[:30], min(len(worklist[:30]), random.randint(1, 6)))
            for row in work:
                if random.random() < 0.5:
                    yield say("read", session, row)
                yield from mark(random, session, row, state, C)
            if random.random() < 0.1:
                yield say("insert", session, HANDED_IN)
            answer = yield say("commit", session)
            if answer[0] == "ok":
                break
            yield say("abort", session)


def mark(random, session, row, state, C):
    """One crown: moved on, seldom withdrawn, seldom marked twice."""
    if random.random() < 0.03:
        yield say("delete", session, row)
        return
    yield say("update", session, row, state + 1)
    if random.random() < 0.1:
        yield say("update", session, row, random.randrange(C))


def night(C):
    """All values tidied, then queried, by a session of its own; returns the column that the queries list."""
    yield say("abort", 15)
    answer = yield say("begin", 15)
    rows = answer[2]
    for value in range(C):
        yield say("tidy", 15, value)
    yield say("abort", 15)
    yield say("begin", 15)
    column = [ABSENT] * rows
    for value in range(C):
        answer = yield say("query", 15, value)
        for row in answer[4:]:
            column[row] = value
    yield say("abort", 15)
    return column


def evening(random):
    """Evenings of colleges that work at once; the night's column is the next evening's first."""
    C = random.randint(4, 8)
    rows = random.choice((300, 500, 800, 1500, 2000, MOST_ROWS))
    column = [ABSENT if random.random() < 0.02 else HANDED_IN for _ in range(rows)]
    while True:
        yield column_line(C, column)
        colleges = [college(random, session, C) for session in range(random.randint(2, 12))]
        answers = [None] * len(colleges)
        for _ in range(random.randint(1, 4)):
            for _ in range(random.randint(100, 2000)):
                at = random.randrange(len(colleges))
                answers[at] = yield colleges[at].send(answers[at])
                if random.random() < 0.005:
                    yield bad_lines.unreadable(random)
            column = yield from night(C)


def stretch(run, count):
    """So many lines of a run."""
    answer = None
    for _ in range(count):
        answer = yield run.send(answer)


def everything(random):
    """Stretches of the other kinds and whole scenes of limits; bad lines first, for there is no column yet."""
    yield from stretch(bad(random), random.randint(50, 300))
    while True:
        kind = random.choices((mixed, limits, bad, evening), (4, 3, 2, 2))[0]
        if kind is limits:
            yield from random.choice(SCENES)(random)
        else:
            yield from stretch(kind(random), random.randint(200, 5000))


KINDS = {"mixed": mixed, "limits": limits, "bad": bad, "evening": evening, "all": everything}


def lines_of(kind, count, seed):
    """The first `count` lines of the kind's run from the seed."""
    run = KINDS[kind](Random(seed))
    index = Index()
    answer = None
    made = []
    for _ in range(count):
        line = run.send(answer)
        answer = step(index, line)
        made.append(line)
    return made


def with_spans(kind, count, seed, index):
    """A run's lines with spans of open sessions between them, as a transcript: the lines, and the answers of the index to each. The step
    program has no word for a span, so this is no input for it."""
    random = Random(seed)
    asked, given = [], []
    for line in lines_of(kind, count, seed):
        asked.append(line)
        given.append(answer_line(step(index, line)))
        opened = [n for n, session in enumerate(index.sessions) if session is not None]
        if opened and random.random() < 0.5:
            ends = sorted(random.randrange(index.C) for _ in range(2))
            numbers = (random.choice(opened), *ends)
            asked.append(say("span", *numbers))
            given.append(answer_line(index.span(*numbers)))
    return asked, given


def input_of(kind, count, seed):
    """The lines as an input file; from an odd seed the last has no newline, unless it would be no line then."""
    made = lines_of(kind, count, seed)
    data = b"".join(line + b"\n" for line in made)
    return data[:-1] if seed % 2 == 1 and made and made[-1] != b"" else data


def main():
    """Writes one input file to standard output."""
    kind, count, seed = sys.argv[1], int(sys.argv[2]), int(sys.argv[3])
    sys.stdout.buffer.write(input_of(kind, count, seed))


if __name__ == "__main__":
    main()
