"""Compares a program with the second program, line by line, on generated runs, and checks the transcripts by replay.

    python3 second/compare.py --program CMD --lines N --seed S [--kind mixed|limits|bad|evening|all] [--chunk 20000]

The lines come in chunks, one run each, from the seeds S, S+1, ..; a longer run just takes a count and a seed. Without
--program only the second program runs. Exits 1 at the first difference.
"""

import argparse
import io
import os
import shlex
import subprocess
import sys
import time
from collections import Counter

import lines
import replay
import runs
import steps
from rules import Index

# Number 1 needs tables lent without room, number 10 a scratch below 32 words: the step program lends both in full.
STEP_NUMBERS = [2, 3, 4, 5, 6, 7, 8, 9, 11, 12, 13, 14, 15, 16, 17, 18, 19]
BEFORE = 6


class Different(Exception):
    """The program's output isn't the second program's."""


def short(line, byte=0):
    """A line as it is shown to the reader: a long one around a byte."""
    if len(line) <= 120:
        return repr(line)
    first = max(0, byte - 60)
    return "%r (from byte %d of %d)" % (line[first:first + 120], first, len(line))


def at(answers, place):
    """The answer at a place, or that there is none."""
    return answers[place] if place < len(answers) else b"(no answer)"


def first_difference(answers, expected):
    """The first place where the answers aren't those expected; None if there is none."""
    for place in range(max(len(answers), len(expected))):
        if answers[place:place + 1] != expected[place:place + 1]:
            return place
    return None


def check_program(program, data, asked, expected):
    """Runs the program on the input; raises Different unless it gives the answers expected and ends well."""
    run = subprocess.run(shlex.split(program), input=data, stdout=subprocess.PIPE, check=False)
    answers = list(lines.split(io.BytesIO(run.stdout)))
    place = first_difference(answers, expected)
    if place is not None:
        before = asked[max(0, place - BEFORE):place + 1]
        shown = ["line %d" % (place + 1)] + ["  input   " + short(line) for line in before]
        given, wanted = at(answers, place), at(expected, place)
        byte = len(os.path.commonprefix([given, wanted]))
        shown += ["  program " + short(given, byte), "  second  " + short(wanted, byte)]
        raise Different("\n".join(shown + ["  the program ended with %d" % run.returncode]))
    if run.returncode != 0:
        raise Different("the program ended with %d" % run.returncode)
    if run.stdout and not run.stdout.endswith(b"\n"):
        raise Different("the program's last line has no newline")


def check_run(kind, count, seed, program):
    """Compares one run and checks its transcript; answers the second program's answer lines."""
    data = runs.input_of(kind, count, seed)
    asked = list(lines.split(io.BytesIO(data)))
    expected = list(steps.answers(io.BytesIO(data), Index()))
    if program is not None:
        check_program(program, data, asked, expected)
    replay.check_transcript(asked, expected)
    return expected


def kind_of_answer(answer):
    """`ok`, or `no N`."""
    return "ok" if answer.startswith(b"ok") else answer.decode()


def summary(kinds, seconds):
    """The counts of lines and of each kind of answer, in one line."""
    count = sum(kinds.values())
    names = ["ok"] + ["no %d" % number for number in STEP_NUMBERS]
    seen = ", ".join("%s: %d" % (name, kinds[name]) for name in names)
    missing = ", ".join(name for name in names if kinds[name] == 0) or "none"
    return "%d lines in %.0f s; %s; never seen: %s" % (count, seconds, seen, missing)


def arguments():
    """The command line."""
    parser = argparse.ArgumentParser(description="compare a step program with the second program")
    parser.add_argument("--program", help="the program under test, fed by standard input")
    parser.add_argument("--lines", type=int, required=True, help="the number of lines in all")
    parser.add_argument("--seed", type=int, required=True, help="the first run's seed")
    parser.add_argument("--kind", choices=sorted(runs.KINDS), default="all")
    parser.add_argument("--chunk", type=int, default=20000, help="the number of lines of a run")
    return parser.parse_args()


def main():
    """Runs the chunks and prints one summary line."""
    asked = arguments()
    kinds = Counter()
    begun = time.monotonic()
    for run, first in enumerate(range(0, asked.lines, asked.chunk)):
        seed = asked.seed + run
        count = min(asked.chunk, asked.lines - first)
        try:
            kinds.update(map(kind_of_answer, check_run(asked.kind, count, seed, asked.program)))
        except (Different, replay.Wrong) as wrong:
            sys.exit("kind %s, seed %d, %d lines: %s" % (asked.kind, seed, count, wrong))
    print(summary(kinds, time.monotonic() - begun))


if __name__ == "__main__":
    main()
