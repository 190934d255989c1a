"""What the generators of runs share: how lines are made, and steps of interleaved sessions."""

from lines import FIELDS
from tables import ABSENT

WORDS = ("begin", "query", "read", "update", "delete", "insert", "commit", "tidy", "abort")
WEIGHTS = (20, 14, 8, 20, 4, 5, 14, 13, 3)


def say(*fields):
    """A line of the fields."""
    return " ".join(map(str, fields)).encode()


def call_line(word, numbers):
    """A line of the word and as many of the numbers as it takes."""
    return say(word, *numbers[:FIELDS[word.encode()]])


def column_line(C, column):
    """The line that makes a column."""
    return say("column", C, *("-" if value is ABSENT else value for value in column))


def any_column(random, C, rows):
    """A column of values below C, some rows absent."""
    return [ABSENT if random.random() < 0.1 else random.randrange(C) for _ in range(rows)]


def near(random, count):
    """A number below the count, and once in forty the count itself or one above it."""
    if count == 0 or random.random() < 0.025:
        return count + random.randrange(2)
    return random.randrange(count)


def refused(answer, *numbers):
    """Whether the answer is one of these refusals."""
    return answer[0] == "no" and answer[1] in numbers


def in_turn(*asked):
    """The lines one after the other, whatever is answered."""
    for line in asked:
        yield line


def interleave(random, C, rows, sessions, steps):
    """So many steps of so many sessions on the rows and values there are."""
    for _ in range(steps):
        word = random.choices(WORDS, WEIGHTS)[0]
        session = near(random, sessions)
        row = near(random, rows)
        value = near(random, C)
        if word in ("begin", "commit", "abort"):
            answer = yield say(word, session)
        elif word in ("read", "delete"):
            answer = yield say(word, session, row)
        elif word == "update":
            answer = yield say(word, session, row, value)
        else:
            answer = yield say(word, session, value)
        if refused(answer, 5) and random.random() < 0.7:
            word, answer = "begin", (yield say("begin", session))
        if word in ("begin", "commit") and answer[0] == "ok":
            rows = max(rows, answer[2])
