#!/usr/bin/env python3
"""Measures searches in stages, beside one search with tables from the goal and beside another planner.

    stages.py BENCH_STAGES [--ties fresh|shallow|deep] [--baseline PROGRAM] FILE..

BENCH_STAGES is the program that `rt run` in crates/bench_stages has built, and each FILE an output.sas. PROGRAM is another
planner that searches in stages. It is called as

    PROGRAM FILE --quiet

and is to print lines `expanded_all N`, the expansions of all its stages, `expanded N` and `before_last N`, those of the
stage that answered and how many of these had less than the greatest f-value, and `pre S`, the seconds that it took for all
tables. Each program has one worker and the processors that this script may use (one with `taskset -c 0`). Runs
alternate. A line for each file has

    task       the file's name
    stage      the stage that answered
    h          the heuristic value of the initial state in it
    expanded   expansions of all stages
    before     those among them that do not have the greatest f-value of the stage that answered: they do not depend on the
               order among open states of equal f-value
    tables     seconds for the tables of all stages, in the fastest of three runs
    seconds    processor time of the whole run
    goal       processor time of the whole run with tables from the goal, `-` if it took more than 60 seconds
    x expanded, x before, x tables   divided by those of PROGRAM

and the last line has the geometric means of the last three columns, and of `seconds` divided by `goal`. The status is 2 if
the arguments are wrong, and 1 if answers differ.
"""

import collections
import math
import os
import re
import sys

import measuring

STAGE = re.compile(r"stage (\d), tables \d+, abstract states \d+, made at (\d+), ended at (\d+), initial value (\d+), "
                   r"expansions (\d+), below the last f-value (\d+)")
MICROSECONDS = 1_000_000
# Ratios of lesser numbers of expansions, and of lesser seconds, say nothing.
LEAST_EXPANSIONS = 10
LEAST_SECONDS = 0.01

Run = collections.namedtuple("Run", "answer seconds stage h expanded before tables")
Beside = collections.namedtuple("Beside", "expanded before tables")


def run_of(program, file, tables, ties):
    """Returns what a run answered and reported; None if it was ended by the cap."""
    status, output, seconds, _, report = measuring.run_capped([program, file, "1", tables, ties, "on"], reports=True)
    if status is None:
        return None
    rows = [tuple(map(int, it.groups())) for it in STAGE.finditer(report)]
    begun, making = 0, 0
    for _, made, ended, _, _, _ in rows:
        making += made - begun
        begun = max(made, ended)
    stage, _, _, h, last, before = rows[-1] if rows else (0,) * 6
    expanded = sum(it[4] for it in rows)
    return Run(output.strip(), seconds, stage, h, expanded, expanded - last + before, making / MICROSECONDS)


def beside_of(program, file):
    """Returns what the other planner reported; None if it was ended by the cap."""
    status, output, _, _, _ = measuring.run_capped([program, file, "--quiet"], reports=True)
    values = dict(it.split(None, 1) for it in output.splitlines() if len(it.split(None, 1)) == 2)
    if status is None or "expanded_all" not in values:
        return None
    expanded, last, before = (int(values[it]) for it in ("expanded_all", "expanded", "before_last"))
    return Beside(expanded, expanded - last + before, float(values["pre"]))


def mean_of(ratios):
    """Returns the geometric mean, NaN if there is none."""
    return math.exp(sum(map(math.log, ratios)) / len(ratios)) if ratios else math.nan


def ratio_of(value, other, least):
    """Returns a ratio of two values, each at least `least`."""
    return max(value, least) / max(other, least)


def measured(given, ties, file):
    """Returns the runs in stages, the runs with tables from the goal, and those of the other planner."""
    staged, goal, beside = [], [], []
    for _ in range(measuring.RUNS):
        staged.append(run_of(given.program, file, "staged", ties))
        goal.append(run_of(given.program, file, "goal", ties))
        if given.baseline:
            beside.append(beside_of(given.baseline, file))
    return staged, goal, beside


def ratios_of(run, tables, beside):
    """Returns the ratios of expansions, of those before the last f-value, and of seconds for tables."""
    return {"expanded": ratio_of(run.expanded, min(it.expanded for it in beside), LEAST_EXPANSIONS),
            "before": ratio_of(run.before, min(it.before for it in beside), LEAST_EXPANSIONS),
            "tables": ratio_of(tables, min(it.tables for it in beside), LEAST_SECONDS)}


def put_line(name, staged, goal, beside, ratios):
    """Prints the line of a file, and adds its ratios to those of the files before."""
    run = staged[0]
    tables, seconds = min(it.tables for it in staged), min(it.seconds for it in staged)
    whole = None if None in goal else min(it.seconds for it in goal)
    here = ratios_of(run, tables, beside) if beside and None not in beside else {}
    if whole is not None:
        here["goal"] = ratio_of(seconds, whole, LEAST_SECONDS)
    for it, ratio in here.items():
        ratios[it].append(ratio)
    shown = [f"{here[it]:.2f}" if it in here else "-" for it in ("expanded", "before", "tables")]
    print(f"{name:<16} {run.stage:>5} {run.h:>7} {run.expanded:>9} {run.before:>9} {tables:>7.3f} {seconds:>8.3f} "
          f"{'-' if whole is None else f'{whole:.3f}':>8} {shown[0]:>10} {shown[1]:>8} {shown[2]:>8}", flush=True)


def main(arguments):
    """Measures each file and prints the lines."""
    ties = measuring.ties_in(arguments)
    given = measuring.compared("stages.py", "BENCH_STAGES", False, arguments)
    ratios, is_right = collections.defaultdict(list), True
    print(f"{'task':<16} {'stage':>5} {'h':>7} {'expanded':>9} {'before':>9} {'tables':>7} {'seconds':>8} {'goal':>8} "
          f"{'x expanded':>10} {'x before':>8} {'x tables':>8}")
    for file in given.files:
        name = os.path.splitext(os.path.basename(file))[0]
        staged, goal, beside = measured(given, ties, file)
        if None in staged:
            print(f"{name:<16} took more than {measuring.CAP} processor seconds", flush=True)
            continue
        is_right = is_right and len({it.answer for it in staged + goal if it}) == 1
        put_line(name, staged, goal, beside, ratios)
    print("geometric means: " + ", ".join(f"x {it} {mean_of(ratios[it]):.2f}" for it in ("expanded", "before", "tables"))
          + f", seconds divided by goal {mean_of(ratios['goal']):.2f}")
    return 0 if is_right else 1


if __name__ == "__main__":
    sys.exit(main(sys.argv[1:]))
