"""Lines at and beyond the edge of the step program's language, for the generators of runs.py."""

from lines import FIELDS, MOST_BYTES

# A readable line has small letters, digits, single spaces and `-` only: any other byte makes 19. A newline ends a line.
NEVER_READ = [bytes([byte]) for byte in range(256) if bytes([byte]) not in b"abcdefghijklmnopqrstuvwxyz0123456789 -\n"]
NO_NUMBERS = (b"", b"-", b"--", b"-1", b"+1", b"1.0", b"0x1", b"1e1", b"one", b"00000", b"00001", b"10000", b"65536",
              b"4294967296", b"18446744073709551616", b"\xd9\xa3", b"\xc2\xb2", b"1-", b"- ")
NO_WORDS = (b"Begin", b"BEGIN", b"begi", b"begins", b"bbegin", b"Column", b"COLUMN", b"colum", b"columns", b"create",
            b"open", b"ok", b"no", b"19", b"0", b"-", b"rollback", b"quer", b"queryy", b"updat", b"tidyy", b"abor")
NO_COLUMNS = (b"column", b"column -", b"column - 0", b"column ", b"column  ", b"column 4 ", b"column 4  1",
              b"column  4 1", b"column 255", b"column 0255 0", b"column 9999", b"column 4 255", b"column 4 0 1 0255",
              b"column 4 999 -", b"column 4 00001", b"column 00004 1", b"column 4 --", b"column 4 -1", b"column 4 1 x",
              b"column 33 1 x", b"column 0 1 255", b"column 4 4 4 -0", b"column4 1", b"column-4 1", b"column\t4 1",
              b"column 4,1,2", b"COLUMN 4 1 2", b" column 4 1 2", b"column 4 1 2 ", b"column 4 1 2\r")
EDGE_COLUMNS = (b"column 1", b"column 0", b"column 33", b"column 254 253", b"column 4 254",
                b"column 0004 0003 003 03 3", b"column 000 0", b"column 32 31 0", b"column 2 - - -", b"column 4 4",
                b"column 1 0 -", b"column 033 32")


def readable(random):
    """A readable line of any word but column, with small numbers."""
    word = random.choice(sorted(FIELDS))
    return [word] + [b"%d" % random.randrange(4) for _ in range(FIELDS[word])]


def wrong_spaces(random):
    """Empty, spaces only, or a leading, a trailing or a double space."""
    fields = readable(random)
    at = random.randrange(len(fields) + 1)
    return random.choice((b"", b" ", b"   ", b" ".join(fields[:at] + [b""] + fields[at:])))


def wrong_byte(random):
    """A byte that no readable line has, somewhere in a readable one: tab, CR, NUL, a high byte or any other."""
    line = b" ".join(readable(random))
    byte = random.choice((b"\t", b"\r", b"\0", b"\xff", random.choice(NEVER_READ)))
    at = random.choice((0, len(line), random.randrange(len(line))))
    return line[:at] + byte + line[at:]


def wrong_word(random):
    """An unknown word, with the fields of a known one."""
    fields = readable(random)
    known = fields[0]
    fields[0] = random.choice((known.upper(), known.title(), known[:-1], known + b"s", known + known,
                               random.choice(NO_WORDS)))
    return b" ".join(fields)


def wrong_count(random):
    """A missing or an extra field."""
    fields = readable(random)
    return b" ".join(random.choice((fields[:-1], fields + [b"0"], fields + [b"1", b"2"], fields[:1])))


def wrong_number(random):
    """A field that isn't a number of 1 to 4 digits."""
    fields = readable(random)
    fields[random.randrange(1, len(fields))] = random.choice(NO_NUMBERS)
    return b" ".join(fields)


def wrong_column(random):
    """A column line that is 19."""
    return random.choice(NO_COLUMNS)


def too_long(random):
    """A line of 8,193 bytes or more that would be readable but for its length, or wrong in other ways too."""
    return random.choice((
        b"column 04" + b" 001" * 2046,
        b"column 4" + b" 001" * 2040 + b" 01" * 11,
        b"column 4" + b" 1" * random.choice((4093, 5000, 40000)),
        b"begin " + b"0" * (MOST_BYTES - 5),
        b"x" * (MOST_BYTES + 1),
        b" " * (MOST_BYTES + 1),
    ))


def bad_at_the_end(random):
    """A long column of too many rows or wrong values whose last field is unreadable: 19, not 3."""
    return b"column 4" + random.choice((b" 1", b" 7")) * 2049 + b" " + random.choice((b"255", b"x", b"", b"00001"))


def longest(random):
    """A line of 8,192 bytes: columns of 2,046 and 2,048 rows, one of too many, and one that is unreadable anyway."""
    return random.choice((
        b"column 4" + b" 001" * 2046,
        b"column 4" + b" 001" * 2040 + b" 01" * 8,
        b"column 4" + b" 1" * 4092,
        b"x" * MOST_BYTES,
    ))


def leading_zeros(random):
    """A readable line whose numbers have four digits."""
    word, *numbers = readable(random)
    return b" ".join([word] + [number.rjust(4, b"0") for number in numbers])


def edge_column(random):
    """A readable column line, accepted or refused by 3."""
    return random.choice(EDGE_COLUMNS)


UNREADABLE = (wrong_spaces, wrong_byte, wrong_word, wrong_count, wrong_number, wrong_column)
LONG = (too_long, bad_at_the_end, longest)


def unreadable(random):
    """A line that is 19."""
    return random.choice(UNREADABLE)(random)


def any_line(random):
    """A line at or beyond the edge, seldom a long one."""
    choice = random.random()
    if choice < 0.01:
        return random.choice(LONG)(random)
    if choice < 0.02:
        return edge_column(random)
    if choice < 0.1:
        return leading_zeros(random)
    return unreadable(random)
