#!/usr/bin/env python3
"""Measures what leaving out what no goal needs is worth: searches of tasks with a reduction beside those without.

    reduction.py BENCH_STAGES FILE..

BENCH_STAGES is the program that `rt run` in crates/bench_stages has built, and each FILE an output.sas. Each search is
in stages, by one worker, in the order `fresh`; runs alternate. A line for each file has

    task       the file's name
    out        the numbers of variables and of operators that are left out
    expanded   expansions of all stages, with a reduction and without
    seconds    processor time of the whole run, the fastest of three, with a reduction and without; `-` if a run without
               took more than 60 seconds
    x expanded, x seconds   the first divided by the second

and the last line has the geometric means of these, over the files of which something is left out and over the others.
The status is 2 if the arguments are wrong, and 1 if answers differ.
"""

import os
import re
import sys

import measuring
from stages import LEAST_EXPANSIONS, LEAST_SECONDS, STAGE, mean_of, ratio_of

OUT = re.compile(r"left out (\d+) variables, (\d+) operators")


def run_of(program, file, reduction):
    """Returns what a run answered, its expansions, its seconds and what it left out; None if it was ended by the
    cap."""
    status, output, seconds, _, report = measuring.run_capped([program, file, "1", "staged", "fresh", reduction], reports=True)
    if status is None:
        return None
    out = OUT.search(report)
    expanded = sum(int(it[5]) for it in STAGE.findall(report))
    return output.strip(), expanded, seconds, tuple(map(int, out.groups())) if out else (0, 0)


def put_line(name, reduced, whole):
    """Prints the line of a file, and returns whether something is left out, and its ratios."""
    answer, expanded, _, out = reduced[0]
    seconds = min(it[2] for it in reduced)
    front = f"{name:<20} {out[0]:>5} {out[1]:>7} {expanded:>10} "
    if None in whole:
        print(f"{front}{'-':>10} {seconds:>8.3f} {'-':>8} {'-':>10} {'-':>9}", flush=True)
        return any(out), None
    other = min(it[2] for it in whole)
    ratios = ratio_of(expanded, whole[0][1], LEAST_EXPANSIONS), ratio_of(seconds, other, LEAST_SECONDS)
    print(f"{front}{whole[0][1]:>10} {seconds:>8.3f} {other:>8.3f} {ratios[0]:>10.2f} {ratios[1]:>9.2f}", flush=True)
    return any(out), ratios


def put_means(rows, what, is_left_out):
    """Prints the geometric means of the ratios of some rows."""
    ratios = [row for out, row in rows if row and out == is_left_out]
    print(f"geometric means, {what}: x expanded {mean_of([it[0] for it in ratios]):.2f}, x seconds {mean_of([it[1] for it in ratios]):.2f}")


def main(arguments):
    """Measures each file and prints the lines."""
    given = measuring.compared("reduction.py", "BENCH_STAGES", False, arguments)
    rows, is_right = [], True
    print(f"{'task':<20} {'out':>5} {'':>7} {'expanded':>10} {'whole':>10} {'seconds':>8} {'whole':>8} {'x expanded':>10} {'x seconds':>9}")
    for file in given.files:
        runs = [(run_of(given.program, file, "on"), run_of(given.program, file, "off")) for _ in range(measuring.RUNS)]
        reduced, whole = map(list, zip(*runs))
        name = os.path.splitext(os.path.basename(file))[0]
        if None in reduced:
            print(f"{name:<20} took more than {measuring.CAP} processor seconds", flush=True)
            continue
        is_right = is_right and len({it[0] for it in reduced + whole if it}) == 1
        rows.append(put_line(name, reduced, whole))
    put_means(rows, "something is left out", True)
    put_means(rows, "nothing is", False)
    return 0 if is_right else 1


if __name__ == "__main__":
    sys.exit(main(sys.argv[1:]))
