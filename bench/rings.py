#!/usr/bin/env python3
"""Measures how many more nodes a multi-threaded search expands than one worker does, whatever its links have room for.

    rings.py BENCH_ENGINE [--ties fresh|shallow|deep] FILE..

BENCH_ENGINE is the program that `rt run` in crates/bench_engine has built, and each FILE an output.sas. Each task is
searched with tables of at most 100,000 abstract states, by 1, 2, 4, 16 and 64 workers, with links for 1, 2 and 64
messages. A line for each task has

    task      the file's name
    one       expansions of one worker
    2 to 64   expansions of as many workers: the median of three runs, of the capacity with the greatest median
    worst     the greatest of these medians, minus 2,000 for each worker, divided by `one`
    at        the numbers of workers and of messages of the worst; `-` if 2,000 for each worker are more

and the last line has the greatest `worst`. A task is left out if one worker takes more than 2,000,000 expansions. The
status is 1 if a program fails, if the costs of two searches of a task differ, or if a search is ended because it takes
more than 120 seconds, and 2 if the arguments are wrong.
"""

import functools
import os
import statistics
import sys

import engine
import measuring

WORKERS = (2, 4, 16, 64)
RINGS = (1, 2, 64)
# What each worker may expand besides, since it begins before it has learned of what the others have found.
A_WORKER = 2_000


def expansions_of(ours, file, cost, workers, ring):
    """Returns the median of the expansions of three searches."""
    runs = [ours(file, workers, True, engine.NO_LIMIT, ring) for _ in range(measuring.RUNS)]
    if None in runs or any(it.cost != cost for it in runs):
        raise engine.Fault(f"{workers} workers with links for {ring}: past {engine.CAP} seconds, or another cost")
    return statistics.median(it.expansions for it in runs)


def measure(ours, file):
    """Prints the line of a task, and returns its worst; None if it is left out."""
    one = ours(file, 1, True, engine.MOST)
    if one is None or one.cost is None:
        return None
    columns, worst, place = [], 0.0, "-"
    for workers in WORKERS:
        found = {ring: expansions_of(ours, file, one.cost, workers, ring) for ring in RINGS}
        ring = max(found, key=found.get)
        columns.append(f"{found[ring]:>11,.0f}")
        times = (found[ring] - A_WORKER * workers) / one.expansions
        if times > worst:
            worst, place = times, f"{workers}, {ring}"
    print(f"{os.path.basename(file):<24} {one.expansions:>11,} {' '.join(columns)} {worst:>6.2f} {place:>7}", flush=True)
    return worst


def main(arguments):
    """Measures each task and prints the lines."""
    ties = measuring.ties_in(arguments)
    given = measuring.compared("rings.py", "BENCH_ENGINE", False, arguments)
    ours = functools.partial(engine.run_ours, given.program, ties)
    print(f"{'task':<24} {'one':>11} {' '.join(f'{it:>11}' for it in WORKERS)} {'worst':>6} {'at':>7}")
    failed, worst = False, []
    for file in given.files:
        try:
            worst.append(measure(ours, file))
        except engine.Fault as fault:
            print(f"{os.path.basename(file)}: {fault}", file=sys.stderr)
            failed = True
    print(f"greatest: {max([it for it in worst if it is not None], default=0):.2f}")
    return int(failed)


if __name__ == "__main__":
    sys.exit(main(sys.argv[1:]))
