#!/usr/bin/env python3
"""Measures how long it takes to make all tables of a task, beside another planner that makes the same tables.

    tables_beside.py BENCH_TABLES --baseline PROGRAM FILE..

BENCH_TABLES is the program that `rt run` in crates/bench_tables has built, and each FILE an output.sas. PROGRAM is the
other planner. It is called as

    PROGRAM pdb FILE --states 1 --quiet

and is to make at most 64 tables for each of 8 columns, of at most 100,000 abstract states each, and to end at the first
state of its search. Its output and its status are ignored. A line for each file has

    task      the file's name
    seconds   processor time of BENCH_TABLES as a whole, in the fastest of three runs
    baseline  that of PROGRAM
    ratio     seconds divided by baseline; `-` if a run took more than 60 processor seconds

and the last line the median of the ratios. Runs of both programs alternate. The status is 2 if the arguments are wrong.
"""

import os
import statistics
import sys

import measuring

LIMIT = 100_000


def processor_seconds(command):
    """Returns the processor time of one run, or None if it was ended by the cap."""
    status, _, seconds, _ = measuring.run_capped(command)
    return None if status is None else seconds


def least(times):
    """Returns the least of the times, or None if one of them is missing."""
    return None if None in times else min(times)


def main(arguments):
    """Measures each file and prints the lines."""
    given = measuring.compared("tables_beside.py", "BENCH_TABLES", True, arguments)
    ratios = []
    print(f"{'task':<20} {'seconds':>8} {'baseline':>8} {'ratio':>6}")
    for file in given.files:
        ours, others = [], []
        for _ in range(measuring.RUNS):
            ours.append(processor_seconds([given.program, file, str(LIMIT), "0"]))
            others.append(processor_seconds([given.baseline, "pdb", file, "--states", "1", "--quiet"]))
        seconds, beside = least(ours), least(others)
        ratio = seconds / beside if seconds is not None and beside else None
        ratios.append(ratio if ratio is not None else float("inf"))
        name = os.path.splitext(os.path.basename(file))[0]
        shown = f"{seconds:.3f}" if seconds is not None else f">{measuring.CAP}"
        print(f"{name:<20} {shown:>8} {beside or 0:>8.3f} {f'{ratio:.2f}' if ratio is not None else '-':>6}", flush=True)
    print(f"median ratio {statistics.median(ratios):.2f}")
    return 0


if __name__ == "__main__":
    sys.exit(main(sys.argv[1:]))
