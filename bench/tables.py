#!/usr/bin/env python3
"""Measures how long it takes to make pattern databases and tables of domain abstractions, and to look values up.

    tables.py [BENCH_TABLES]

BENCH_TABLES is the program's file; without it, the one that `rt run` in crates/bench_tables has built. It reads a task
that generate_tables.py makes, makes tables and evaluates lower bounds; it runs three times on each. The first table has
a line for each size of a task with one table and 500 operators that affect it:

    states      abstract states
    seconds     wall time of the whole program, in the fastest run: reading, backward search, saturated shares
    growth      growth of seconds since the line above, divided by that of the states: 1.00 is linear
    peak MB     greatest resident memory of all runs, in millions of bytes

The second table has a line for each size of the 64 tables of a column, of which there are 8:

    states      abstract states of each table
    seconds     wall time of the whole program without look-ups, in the fastest run
    ns/look-up  additional time with look-ups, divided by the number of look-ups, in nanoseconds
    peak MB     as above

The third table has a line for the domain abstraction of a goal variable, with 2 or 1,000 classes and 500 operators:

    values      values of the variable
    classes     classes of the table
    seconds     wall time of the whole program, in the fastest run; with 2 classes nearly all of it is reading

The status is 1 if an answer is wrong, and 2 if there is no program.
"""

import os
import subprocess
import sys
import tempfile

import measuring

ONE_SIZES = [22, 46, 68, 90]
MANY_SIZES = [10, 20, 40]
RANGES = [16_384, 65_536]
CLASSES = 1000
TIMES = 200_000
BUILT = os.path.join(measuring.FOLDER, "..", "crates", "bench_tables", "out", "bench_tables")


def generate(folder, kind, size):
    """Makes a task, and returns the numbers that its generator prints."""
    command = [sys.executable, os.path.join(measuring.FOLDER, "generate_tables.py"), folder, kind, str(size)]
    return subprocess.run(command, check=True, stdout=subprocess.PIPE).stdout.decode("ascii").split()


def measure(program, kind, size, limit, times, bound=None):
    """Runs the program on a task. Returns whether each answer was right, the least seconds and the greatest peak in
    bytes. `bound` is the lower bound of the initial state if it is not the task's own, as with tables that merge
    more."""
    with tempfile.TemporaryDirectory() as folder:
        tables, own_bound, greatest = generate(folder, kind, size)
        bound = own_bound if bound is None else bound
        wanted = f"{tables} tables, {bound} from the initial state, {greatest if times else 0} at most"
        right, seconds, peaks = True, [], []
        for _ in range(measuring.RUNS):
            output, status, took, peak = measuring.run(program, [os.path.join(folder, "task.sas"), str(limit), str(times)])
            if output.strip() != wanted or status != 0:
                right = False
                print(f"tables.py: {kind} {size}: expected {wanted!r} and status 0, got {output[:200]!r} and status {status}",
                      file=sys.stderr)
            seconds.append(took)
            peaks.append(peak)
    return right, min(seconds), max(peaks)


def main(arguments):
    """Measures each size and prints the tables."""
    program = measuring.program_of("tables.py", arguments, "BENCH_TABLES", BUILT, "`rt run` in crates/bench_tables builds it")
    if program is None:
        return 2
    all_right = True
    print(f"{'states':>8} {'seconds':>8} {'growth':>7} {'peak MB':>8}")
    before = None  # seconds for a state in the line above
    for size in ONE_SIZES:
        states = size ** 3
        right, seconds, peak = measure(program, "one", size, states, 0)
        all_right = all_right and right
        growth = f"{seconds / states / before:.2f}" if before else "-"
        print(f"{states:>8,} {seconds:>8.3f} {growth:>7} {peak / 1e6:>8.1f}", flush=True)
        before = seconds / states
    print(f"{'states':>8} {'seconds':>8} {'ns/look-up':>10} {'peak MB':>8}")
    for size in MANY_SIZES:
        right, without, _ = measure(program, "many", size, size ** 2, 0)
        also_right, seconds, peak = measure(program, "many", size, size ** 2, TIMES)
        all_right = all_right and right and also_right
        look_up = (seconds - without) / (TIMES * 512)
        print(f"{size ** 2:>8,} {without:>8.3f} {look_up * 1e9:>10.1f} {peak / 1e6:>8.1f}", flush=True)
    print(f"{'values':>9} {'classes':>8} {'seconds':>8}")
    for size in RANGES:
        for limit in (2, CLASSES):
            right, seconds, _ = measure(program, "classes", size, limit, 0, bound=1 if limit == 2 else None)
            all_right = all_right and right
            print(f"{size:>9,} {limit:>8,} {seconds:>8.3f}", flush=True)
    return 0 if all_right else 1


if __name__ == "__main__":
    sys.exit(main(sys.argv[1:]))
