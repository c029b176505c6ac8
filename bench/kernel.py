#!/usr/bin/env python3
"""Measures how fast one owner expands nodes, and how much memory a state takes, beside another planner on the same
tasks.

    kernel.py BENCH_SEARCH --baseline PROGRAM FILE..

BENCH_SEARCH is the program that `rt run` in crates/bench_search has built, and each FILE an output.sas. PROGRAM is the
other planner. It is called as

    PROGRAM blind FILE --quiet --time 5     A* by one thread, without a heuristic
    PROGRAM pdb FILE --quiet --time 5       the same with tables of at most 100,000 abstract states

and is to end after that many seconds if it has no plan by then. Its standard output has lines `expanded N` (nodes),
`states N` (stored states), `seconds_search S` (wall time of the search, without reading and tables) and
`peak_memory_kb N`; other lines are ignored, and so is its status.

PROGRAM determines the number of expansions: BENCH_SEARCH expands as many nodes, with one owner, and no bound ends its
search. Runs of both alternate. A line for each search has

    task          the file's name
    tables        whether there are tables
    expanded      nodes that both expand
    ours          nodes that BENCH_SEARCH expands in a processor second, in thousands, in the fastest of three runs; the
                  time of a run with one expansion is subtracted
    baseline      nodes that PROGRAM expands in a second of its search, in thousands, in the fastest run
    ratio         ours divided by baseline
    bytes         greatest resident memory, minus that of a run with one expansion, divided by the stored states
    baseline      greatest memory of PROGRAM, divided by its states

and the last lines are the medians of ratio and bytes. A search is left out if it has fewer than 20,000 expansions, or
takes less than 0.05 seconds more than a run with one expansion. The status is 1 if a program fails or takes more than
60 processor seconds, and 2 if the arguments are wrong.
"""

import os
import statistics
import sys
import time

import measuring

TABLE = 100_000
SECONDS = "5"
FEWEST = 20_000
LEAST_SECONDS = 0.05


class Baseline:
    """The fastest run of the other planner on a task."""

    def __init__(self, program, file, with_tables):
        self.command = [program, "pdb" if with_tables else "blind", file, "--quiet", "--time", SECONDS]
        self.seconds, self.expanded, self.states, self.peak = float("inf"), 0, 0, 0

    def figures(self):
        """Runs the planner. Returns its figures by their names, and nothing if it was ended by the cap."""
        status, output, _, _ = measuring.run_capped(self.command)
        return {} if status is None else dict(line.split(" ", 1) for line in output.splitlines() if " " in line)

    def run(self):
        """Runs the planner once more, and returns whether it succeeded."""
        figures = self.figures()
        if "seconds_search" not in figures:
            return False
        self.seconds = min(self.seconds, float(figures["seconds_search"]))
        self.expanded, self.states = int(figures["expanded"]), int(figures["states"])
        self.peak = max(self.peak, int(figures["peak_memory_kb"]) * 1024)
        return True

    def rate(self):
        return self.expanded / max(self.seconds, 1e-4)

    def bytes(self):
        return self.peak / self.states


class Ours:
    """The fastest run of BENCH_SEARCH with a number of expansions."""

    def __init__(self, program, file, with_tables, steps):
        self.command = [program, file, "1", str(steps), str(TABLE if with_tables else 0)]
        self.steps, self.seconds, self.stored, self.peak = steps, float("inf"), 0, 0

    def run(self):
        """Runs the program once more, and returns whether it succeeded."""
        status, output, seconds, peak = measuring.run_capped(self.command)
        found = output.replace(",", "").split()
        if status != 0 or len(found) < 3:
            return False
        self.steps, self.stored = int(found[0]), int(found[2])
        self.seconds, self.peak = min(self.seconds, seconds), max(self.peak, peak)
        return True


def measure(program, baseline, file, with_tables):
    """Measures both programs on a task. Returns the ratio and the bytes of a state, None if the search is left out, and
    False if a program failed."""
    other = Baseline(baseline, file, with_tables)
    if not other.run() or other.expanded < FEWEST:
        return None
    one, all_steps = (Ours(program, file, with_tables, steps) for steps in (1, other.expanded))
    for _ in range(measuring.RUNS):
        if not (other.run() and one.run() and all_steps.run()):
            return False
    if all_steps.seconds - one.seconds < LEAST_SECONDS:
        return None
    rate = all_steps.steps / (all_steps.seconds - one.seconds)
    size = (all_steps.peak - one.peak) / max(all_steps.stored, 1)
    name = os.path.splitext(os.path.basename(file))[0]
    print(f"{name:<20} {'yes' if with_tables else 'no':>6} {other.expanded:>9,} {rate / 1e3:>8,.0f} {other.rate() / 1e3:>8,.0f} "
          f"{rate / other.rate():>6.2f} {size:>6.0f} {other.bytes():>8.0f}", flush=True)
    return rate / other.rate(), size


def main(arguments):
    """Measures each task and prints the lines."""
    given = measuring.compared("kernel.py", "BENCH_SEARCH", True, arguments)
    print(f"{'task':<20} {'tables':>6} {'expanded':>9} {'ours':>8} {'baseline':>8} {'ratio':>6} {'bytes':>6} {'baseline':>8}")
    started, failed = time.time(), False
    for with_tables in (False, True):
        found = []
        for file in given.files:
            measured = measure(given.program, given.baseline, file, with_tables)
            if measured:
                found.append(measured)
            elif measured is False:
                failed = True
                print(f"kernel.py: {file}: a program failed", file=sys.stderr)
        if found:
            ratios, sizes = zip(*found)
            print(f"median {'with tables' if with_tables else 'blind'}: ratio {statistics.median(ratios):.2f}, {statistics.median(sizes):.0f} bytes a state")
    print(f"{time.time() - started:.0f} seconds in all")
    return int(failed)


if __name__ == "__main__":
    sys.exit(main(sys.argv[1:]))
