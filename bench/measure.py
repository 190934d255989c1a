"""Prints what a line costs a program, beside what it costs the plain baseline; and what a span costs the archive.

    python3 bench/measure.py PLAIN PROGRAM [SPANS]

The cost of a line is that of an input with the lines less that of its run-up alone, divided by their number. It is
counted in executed instructions; where neither valgrind nor perf can count them, it is processor time, and growth,
a small difference of large times, is left out. A span has no line: SPANS is bench/spans.c, built with the archive, and the
cost of a span is that of twice as many spans less that of so many, divided by their number.
"""

import os
import re
import resource
import shutil
import subprocess
import sys
from collections import namedtuple
from functools import lru_cache

import inputs

# valgrind counts a string instruction once for each byte: the C library is told to fill and copy by vectors instead.
FAR = 1 << 30
TUNABLES = "glibc.cpu.x86_rep_stosb_threshold=%d:glibc.cpu.x86_rep_movsb_threshold=%d" % (FAR, FAR)
ENVIRONMENT = dict(os.environ, GLIBC_TUNABLES=TUNABLES)
TIMED_LINES = 30000
TIMED_RUNS = 5
# So many spans: each of 14 sessions asks for each quarter of the values.
SPAN_CALLS = 56

# How costs are taken: the unit, a function of the program and its input, and the number of lines or calls that it needs.
Meter = namedtuple("Meter", "unit cost lines")


class Different(Exception):
    """The two programs do not answer alike, or refuse what should be accepted."""


def run(command, data):
    """What a command answers on standard output, and what it says on standard error."""
    done = subprocess.run(command, input=data, env=ENVIRONMENT, capture_output=True, check=True)
    return done.stdout, done.stderr.decode()


@lru_cache(maxsize=None)
def by_valgrind(program, data):
    """Instructions as valgrind counts them."""
    _, said = run(["valgrind", "--tool=callgrind", "--callgrind-out-file=/dev/null", *program], data)
    return int(re.search(r"Collected : (\d+)", said).group(1))


@lru_cache(maxsize=None)
def by_perf(program, data):
    """Instructions as the processor counts them."""
    _, said = run(["perf", "stat", "-x,", "-e", "instructions:u", *program], data)
    return int(re.search(r"^(\d+),", said, re.MULTILINE).group(1))


def by_time(program, data):
    """Nanoseconds of processor time: the least of some runs."""
    times = []
    for _ in range(TIMED_RUNS):
        before = resource.getrusage(resource.RUSAGE_CHILDREN).ru_utime
        run(program, data)
        times.append(resource.getrusage(resource.RUSAGE_CHILDREN).ru_utime - before)
    return min(times) * 1e9


def counts(cost, program):
    """Whether this way of counting works here."""
    try:
        return cost(program, b"") > 0
    except (OSError, AttributeError, subprocess.CalledProcessError):
        return False


def meter_here(program):
    """The best meter that works here."""
    if shutil.which("valgrind") and counts(by_valgrind, program):
        return Meter("instructions per line or call, counted by valgrind", by_valgrind, 1)
    if shutil.which("perf") and counts(by_perf, program):
        return Meter("instructions per line or call, counted by perf", by_perf, 1)
    return Meter("nanoseconds per line or call", by_time, TIMED_LINES)


def text(lines):
    """The lines as an input."""
    return b"".join(line + b"\n" for line in lines)


def refused(workload, programs):
    """How many of the measured lines are refused; raises Different unless the programs answer alike."""
    data = text(workload.runup + workload.lines)
    answers = [run(program, data)[0] for program in programs]
    if any(answer != answers[0] for answer in answers):
        raise Different("the programs answer differently: " + workload.name)
    return sum(line.startswith(b"no") for line in answers[0].split(b"\n")[len(workload.runup):])


def cost_of(meter, program, workload):
    """The cost of one of the measured lines."""
    rounds = -(-meter.lines // len(workload.lines))
    whole = meter.cost(program, text(workload.runup + workload.lines) * rounds)
    runup = meter.cost(program, text(workload.runup) * rounds)
    return (whole - runup) / (rounds * len(workload.lines))


def print_workloads(meter, programs):
    """The table of the workloads."""
    print("\n%-28s%8s%9s%10s%10s%8s" % ("", "lines", "refused", "plain", "program", "ratio"))
    for workload in inputs.workloads():
        no = refused(workload, programs)
        plain, program = (cost_of(meter, each, workload) for each in programs)
        shown = (workload.name, len(workload.lines), no, plain, program, program / plain)
        print("%-28s%8d%9d%10.0f%10.0f%8.2f" % shown, flush=True)


def spanned(program, plan, calls, *more):
    """The commands that make so many spans of a plan: in plain C, and by the archive."""
    return [(program, way, str(plan.values), str(calls), *more) for way in ("plain", "archive")]


def print_spans(meter, program):
    """The table of the spans."""
    print("\n%-32s%8s%10s%10s%8s" % ("", "calls", "plain", "archive", "ratio"))
    calls = SPAN_CALLS * -(-meter.lines // SPAN_CALLS)
    for plan in inputs.spans():
        data = text(plan.runup)
        plain, archive = (run(command, data)[0] for command in spanned(program, plan, SPAN_CALLS, "show"))
        if plain != archive or plain.count(b"\nspan 0 ") != SPAN_CALLS + 1:
            raise Different("the spans differ, or one is refused: " + plan.name)
        some, twice = (spanned(program, plan, number) for number in (calls, 2 * calls))
        plain, archive = ((meter.cost(more, data) - meter.cost(less, data)) / calls for less, more in zip(some, twice))
        print("%-32s%8d%10.0f%10.0f%8.2f" % (plan.name, calls, plain, archive, archive / plain), flush=True)


def row(form, numbers):
    """The numbers side by side."""
    return "".join(form % number for number in numbers)


def print_costs(name, costs, points):
    """One program's costs along a series, and what each unit adds from point to point."""
    pairs = list(zip(points, costs))
    slopes = [(after - before) / (to - at) for (at, before), (to, after) in zip(pairs, pairs[1:])]
    print("%-18s%s   %s" % (name, row("%8.0f", costs), row("%8.2f", slopes)))


def costs_along(meter, program, series, call):
    """What a call costs a program at each point of a series, less what the refused line costs there, where there is one."""
    costs = [cost_of(meter, program, workload) for workload in series.calls[call]]
    less = [cost_of(meter, program, workload) for workload in series.less]
    return [cost - beside for cost, beside in zip(costs, less or [0] * len(costs))]


def print_series(meter, programs, series):
    """The table of a growth series: each call's cost at each point."""
    print("\n%-18s%s   for each %s, from point to point" % (series.name, row("%8d", series.points), series.unit))
    if any(refused(workload, programs) < len(workload.lines) for workload in series.less):
        raise Different("a line is not refused: " + series.name)
    for call, workloads in series.calls.items():
        if any(refused(workload, programs) for workload in workloads):
            raise Different("a line is refused: " + series.name)
        plain, program = (costs_along(meter, each, series, call) for each in programs)
        print_costs("  %-6s  plain" % call, plain, series.points)
        print_costs("          program", program, series.points)
        print("%-18s%s" % ("          ratio", row("%8.2f", (b / a for a, b in zip(plain, program)))), flush=True)


def main():
    """Measures two programs, and the spans."""
    programs = [(os.path.abspath(program),) for program in sys.argv[1:3]]
    meter = meter_here(programs[0])
    print(meter.unit)
    try:
        print_workloads(meter, programs)
        for spans in sys.argv[3:4]:
            print_spans(meter, os.path.abspath(spans))
        if meter.cost is not by_time:
            for series in inputs.growth():
                print_series(meter, programs, series)
    except Different as wrong:
        sys.exit(str(wrong))


if __name__ == "__main__":
    main()
