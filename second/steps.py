"""The second program: reads lines from standard input and writes one answer line for each.

    python3 second/steps.py < input > output
"""

import sys

import lines
from rules import Index


def step(index, line):
    """The answer to one line, as a tuple."""
    try:
        word, fields = lines.request(line)
    except lines.Unreadable:
        return ("no", 19)
    call = index.create if word == "column" else getattr(index, word)
    return call(*fields)


def answers(stream, index):
    """The answer lines, without newlines, to the lines of a binary stream."""
    for line in lines.split(stream):
        yield lines.answer_line(step(index, line))


def main():
    """Answers standard input on standard output."""
    for answer in answers(sys.stdin.buffer, Index()):
        sys.stdout.buffer.write(answer + b"\n")


if __name__ == "__main__":
    main()
