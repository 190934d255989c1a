"""The step program's language: the bytes of a line to a request, unless it is 19; an answer to the bytes of a line."""

from tables import ABSENT

MOST_BYTES = 8192
MOST_DIGITS = 4
MOST_IN_COLUMN = 254

# "Others take session, then row, then value, where they have them."
FIELDS = {
    b"begin": 1,
    b"query": 2,
    b"read": 2,
    b"update": 3,
    b"delete": 2,
    b"insert": 2,
    b"commit": 1,
    b"tidy": 2,
    b"abort": 1,
}


class Unreadable(Exception):
    """A line that is refused by 19, decided before the others."""


def split(stream):
    """The lines of a binary stream without their newlines; a last line without a newline counts."""
    for line in stream:
        yield line[:-1] if line.endswith(b"\n") else line


def number(field):
    """The number that a field of 1 to 4 digits writes; leading zeros are digits."""
    if not field.isdigit() or len(field) > MOST_DIGITS:
        raise Unreadable
    return int(field)


def column_number(field):
    """The number that a field of a column line writes: one above 254, C too, is 19."""
    answer = number(field)
    if answer > MOST_IN_COLUMN:
        raise Unreadable
    return answer


def column_value(field):
    """A row's value in a column line; `-` is absent."""
    return ABSENT if field == b"-" else column_number(field)


def request(line):
    """The line's word and its fields, as (name, fields): the fields are what the call takes."""
    if len(line) > MOST_BYTES:
        raise Unreadable
    # "Fields are split by one space": any other space makes a field that is empty or no number.
    word, *fields = line.split(b" ")
    if word == b"column":
        if not fields:
            raise Unreadable
        return "column", [column_number(fields[0]), [column_value(field) for field in fields[1:]]]
    if word not in FIELDS or len(fields) != FIELDS[word]:
        raise Unreadable
    return word.decode(), [number(field) for field in fields]


def answer_line(answer):
    """The bytes of an answer without the newline: `ok` and numbers, `-` for absent, or `no N`."""
    return " ".join("-" if field is ABSENT else str(field) for field in answer).encode()
