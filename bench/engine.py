#!/usr/bin/env python3
"""Measures how a multi-threaded search scales with its number of workers: in expansions a second, in the time of the
search, and in the nodes that are expanded again.

    engine.py BENCH_ENGINE [--ties fresh|shallow|deep] [--workers N,..] [--baseline PROGRAM] FILE..

BENCH_ENGINE is the program that `rt run` in crates/bench_engine has built, and each FILE an output.sas. PROGRAM, if
given, is another planner. It is called as

    PROGRAM hda FILE --workers N --quiet --time S [--blind]

and is to search with N threads, with `--blind` without a heuristic and else with the same tables as BENCH_ENGINE. Its
status is 0 with a plan, 4 if there is none, and 5 if it ended after S seconds without an answer. Its standard output
has lines `expanded N` (nodes), `states N` (stored states), `seconds_search S` (wall time of the search),
`peak_memory_kb N` and, with status 0, `cost N`.

Each task is searched blind and with tables of at most 100,000 abstract states, by one worker and by the numbers of
workers after it that --workers lists (1,2,4,64 if it is left out), with links for 64 messages, in the order that --ties
names (fresh if it is left out). If one worker settles a search with at most 4,000,000 expansions in at most 120 seconds,
it is run to its end with every number of workers. Otherwise 2,000,000 expansions are divided among the workers, the
search ends as soon as one of them has done its share, and PROGRAM runs for as many seconds as one worker took, rounded
up. Runs of both programs, and of all numbers of workers, alternate. The fastest of three runs counts, by seconds, or by
expansions a second if the search is stopped. A line for a search has

    task        the file's name
    tables      whether there are tables
    program     ours or baseline
    workers     the number of threads
    expanded    nodes that all workers expand, each as often as it is expanded
    a second    expanded divided by the seconds, in thousands
    rate        `a second` divided by that of the same program with one worker
    seconds     wall time of the search, without reading and tables
    speed       seconds of the same program with one worker, divided by seconds
    more        expanded minus that of the same program with one worker
    bytes       greatest resident memory of the process, divided by the stored states

Speed and more are left out if the search is stopped, and all figures if a run is ended because it takes more than 120
seconds in all. The last lines are medians of rate and speed, and, beside PROGRAM, the geometric means and the extremes
of `a second` and of `bytes`, each divided by PROGRAM's with as many workers; `bytes` counts if both programs store at
least 500,000 states. A search is left out if one worker settles it with fewer than 20,000 expansions, or in less than
0.05 seconds.

The status is 1 if a program fails, or if the costs or the ends of two searches of a task differ, and 2 if the arguments
are wrong.
"""

import functools
import math
import os
import re
import statistics
import sys
import time

import measuring
from stages import mean_of

WORKERS = "1,2,4,64"
RING = 64
TABLE = 100_000
MOST = 4_000_000
SHARED = 2_000_000
NO_LIMIT = 2 ** 63
CAP = 120
FEWEST = 20_000
# The least number of stored states for which memory is compared: with fewer, most of it is that of tables.
FEWEST_STATES = 500_000
LEAST_SECONDS = 0.05
# The least seconds of a search: the programs report milliseconds.
LEAST_TIME = 1e-3
ANSWER = re.compile(r"(?:settled (?P<cost>\d+|infinite)|stopped)\n")
FIGURES = re.compile(r"expansions (?P<expansions>\d+), states (?P<states>\d+), milliseconds (?P<milliseconds>\d+)\n")

# Figures that the baseline prints for each search.
BASELINE_FIGURES = ("expanded", "states", "seconds_search", "peak_memory_kb")


class Fault(Exception):
    """A program failed, or printed something else than its usage allows."""


class Run:
    """One run of a program: its cost, None if it was stopped, its expansions, the seconds of its search, the states that
    it stored, and the bytes of its memory."""

    def __init__(self, cost, expansions, seconds, states, peak):
        self.cost, self.expansions, self.seconds = cost, expansions, max(seconds, LEAST_TIME)
        self.states, self.bytes = states, peak / max(states, 1)

    def rate(self):
        return self.expansions / self.seconds

    def is_faster(self, other):
        """Returns whether it is faster than another run of the same search: by expansions a second if one of them was
        stopped."""
        if self.cost is None or other.cost is None:
            return self.rate() > other.rate()
        return self.seconds < other.seconds


def run_ours(program, ties, file, workers, with_tables, limit, ring=RING):
    """Returns one run of BENCH_ENGINE in this order, with links for `ring` messages, or None if it was ended by the
    cap."""
    ran = measuring.run_within([program, file, str(workers), str(ring), str(TABLE if with_tables else 0), str(limit), ties], CAP)
    if ran is None:
        return None
    status, output, errors, peak = ran
    answer, figures = ANSWER.fullmatch(output), FIGURES.fullmatch(errors)
    if status != 0 or answer is None or figures is None:
        raise Fault(f"{workers} workers: status {status}, {output[:100]!r}, {errors[:200]!r}")
    return Run(answer["cost"], int(figures["expansions"]), int(figures["milliseconds"]) / 1e3, int(figures["states"]), peak)


def run_baseline(program, file, workers, with_tables, seconds):
    """Returns one run of the baseline, or None if it was ended by the cap."""
    command = [program, "hda", file, "--workers", str(workers), "--quiet", "--time", str(seconds), *([] if with_tables else ["--blind"])]
    ran = measuring.run_within(command, CAP)
    if ran is None:
        return None
    status, output, errors, _ = ran
    figures = dict(line.split(" ", 1) for line in output.splitlines() if " " in line)
    if status not in (0, 4, 5) or not figures.keys() >= {*BASELINE_FIGURES, *(["cost"] if status == 0 else [])}:
        raise Fault(f"the baseline with {workers} workers: status {status}, {output[-100:]!r}, {errors[:200]!r}")
    cost = {0: figures.get("cost"), 4: "infinite", 5: None}[status]
    return Run(cost, int(figures["expanded"]), float(figures["seconds_search"]), int(figures["states"]), int(figures["peak_memory_kb"]) * 1024)


class Search:
    """The fastest run of a program with this many workers."""

    def __init__(self, program, workers, run_once):
        self.program, self.workers, self.run_once = program, workers, run_once
        self.best, self.is_past, self.costs = None, False, set()

    def run(self):
        """Runs it once more, unless a run was ended by the cap."""
        if self.is_past:
            return
        ran = self.run_once()
        if ran is None:
            self.best, self.is_past = None, True
            return
        self.costs.add(ran.cost)
        if self.best is None or ran.is_faster(self.best):
            self.best = ran

    def figures(self, one):
        """Returns rate and speed beside the search by one worker, each None if it is left out."""
        if self.best is None or one.best is None:
            return None, None
        is_settled = None not in self.costs | one.costs
        return self.best.rate() / one.best.rate(), one.best.seconds / self.best.seconds if is_settled else None

    def line(self, one):
        """Returns its columns from the third one on."""
        head = f"{self.program:<8} {self.workers:>7}"
        if self.best is None:
            return f"{head} past {CAP} seconds"
        rate, speed = self.figures(one)
        more = "-" if speed is None else format(self.best.expansions - one.best.expansions, ",")
        rate, speed = ("-" if it is None else format(it, ".2f") for it in (rate, speed))
        return f"{head} {self.best.expansions:>11,} {self.best.rate() / 1e3:>8,.0f} {rate:>6} {self.best.seconds:>8.3f} {speed:>6} {more:>11} {self.best.bytes:>6.0f}"


def searches_of(ours, baseline, file, with_tables, numbers, seconds):
    """Returns the searches of a task, by program and number of workers. `ours` runs BENCH_ENGINE once. A search that is
    not run to its end has a number of seconds for the baseline."""
    limits = {workers: SHARED // workers if seconds else NO_LIMIT for workers in numbers}
    seconds = seconds or CAP
    searches = {}
    for workers in numbers:
        searches["ours", workers] = Search("ours", workers, lambda n=workers: ours(file, n, with_tables, limits[n]))
        if baseline:
            searches["baseline", workers] = Search(
                "baseline", workers, lambda n=workers: run_baseline(baseline, file, n, with_tables, seconds))
    return searches


def seconds_of_stopped(ours, file, with_tables):
    """Returns the seconds that PROGRAM has for a search that is stopped: those that one worker takes, rounded up."""
    stopped = ours(file, 1, with_tables, SHARED)
    if stopped is None:
        raise Fault(f"{SHARED} expansions take more than {CAP} seconds")
    return math.ceil(stopped.seconds)


def measure(ours, baseline, file, with_tables, numbers):
    """Returns the searches of a task, none if they are left out. Fails if a program fails, or does not end the search
    as it should."""
    first = ours(file, 1, with_tables, MOST)
    is_settled = first is not None and first.cost is not None
    if is_settled and (first.expansions < FEWEST or first.seconds < LEAST_SECONDS):
        return {}
    seconds = None if is_settled else seconds_of_stopped(ours, file, with_tables)
    searches = searches_of(ours, baseline, file, with_tables, numbers, seconds)
    for _ in range(measuring.RUNS):
        for search in searches.values():
            search.run()
    for (name, workers), search in searches.items():
        if is_settled and name == "ours" and None in search.costs:
            raise Fault(f"{workers} workers: stopped, with no limit that ends the search")
    return searches


def print_searches(name, with_tables, searches):
    """Prints the lines of a task's searches, those of one program after the other."""
    for program, workers in sorted(searches, key=lambda it: (it[0] != "ours", it[1])):
        line = searches[program, workers].line(searches[program, 1])
        print(f"{name:<20} {'yes' if with_tables else 'no':>6} {line}", flush=True)


def median(values):
    """Returns the median of the values that are not None, as it is printed."""
    found = [it for it in values if it is not None]
    return f"{statistics.median(found):.2f}" if found else "-"


def print_ratios(what, ratios):
    """Prints the geometric mean and the extremes of some ratios."""
    if ratios:
        print(f"{what} of {len(ratios)} searches: mean {mean_of(ratios):.2f}, least {min(ratios):.2f}, greatest {max(ratios):.2f}")


def print_beside(with_tables, measured, numbers):
    """Prints optplan's figures divided by the baseline's, for each number of workers."""
    for workers in numbers:
        pairs = [(it["ours", workers].best, it["baseline", workers].best) for it in measured if ("baseline", workers) in it]
        pairs = [it for it in pairs if None not in it]
        what = f"{'with tables' if with_tables else 'blind'}, {workers} workers, divided by the baseline's,"
        print_ratios(f"{what} `a second`", [ours.rate() / other.rate() for ours, other in pairs])
        print_ratios(f"{what} `bytes`", [ours.bytes / other.bytes for ours, other in pairs if min(ours.states, other.states) >= FEWEST_STATES])


def print_medians(with_tables, measured, numbers):
    """Prints the medians of rate and speed over all tasks, for each program and number of workers."""
    for program in ("ours", "baseline"):
        for workers in numbers[1:]:
            figures = [it[program, workers].figures(it[program, 1]) for it in measured if (program, workers) in it]
            if figures:
                rates, speeds = zip(*figures)
                print(f"median {'with tables' if with_tables else 'blind'}, {program}, {workers} workers: rate {median(rates)}, speed {median(speeds)}")


def main(arguments):
    """Measures each task and prints the lines."""
    ties, numbers = measuring.ties_in(arguments), measuring.workers_in(arguments, WORKERS)
    given = measuring.compared("engine.py", "BENCH_ENGINE", False, arguments)
    ours = functools.partial(run_ours, given.program, ties)
    print(f"{'task':<20} {'tables':>6} {'program':<8} {'workers':>7} {'expanded':>11} {'a second':>8} {'rate':>6} {'seconds':>8} {'speed':>6} {'more':>11} {'bytes':>6}")
    started, failed, costs = time.time(), False, {file: set() for file in given.files}
    for with_tables in (False, True):
        measured = []
        for file in given.files:
            try:
                searches = measure(ours, given.baseline, file, with_tables, numbers)
            except (Fault, OSError) as fault:
                failed = True
                print(f"engine.py: {file}: {fault}", file=sys.stderr)
                continue
            measured.append(searches)
            print_searches(os.path.splitext(os.path.basename(file))[0], with_tables, searches)
            costs[file].update(*(it.costs for it in searches.values()))
        print_medians(with_tables, measured, numbers)
        print_beside(with_tables, measured, numbers)
    for file, found in costs.items():
        if len(found - {None}) > 1:
            failed = True
            print(f"engine.py: {file}: answers differ: {' and '.join(sorted(found - {None}))}", file=sys.stderr)
    print(f"{time.time() - started:.0f} seconds in all")
    return int(failed)


if __name__ == "__main__":
    sys.exit(main(sys.argv[1:]))
