#!/usr/bin/env python3
"""Tests that owners of states continue after a refused allocation: the refused step leaves everything unchanged and is
repeated.

    refused_steps.py [PROGRAM]

PROGRAM is the program of `crates/bench_refusals`; without it, the one that `rt run` has built there. It searches a grid
by three owners and reports all their states. Each growth of memory is refused in turn, in a run of its own. The states
must be the same as without a refusal, entry by entry, or memory was refused before or after the search and nothing is
reported. The last line is the number of runs with a refused growth, of those in which a step was refused, and of those
that ended wrongly. The status is 1 if a run ended wrongly, or if no step was refused.
"""

import os
import subprocess
import sys

from refusals import library

FOLDER = os.path.dirname(os.path.abspath(__file__))
BUILT = os.path.join(os.path.dirname(FOLDER), "crates", "bench_refusals", "out", "bench_refusals")

# The output, the standard error and the status of a run that is refused memory before or after its search.
NOTHING_REPORTED = (b"", b"", 6)


def run_refusing(program, number):
    """Returns the output, the standard error and the status of a run whose growth with this number is refused, and
    whether it made that growth."""
    reader, writer = os.pipe()
    try:
        environment = {"LD_PRELOAD": library(), "REFUSE_KIND": "growth", "REFUSE_AT": str(number), "REFUSE_TOLD": str(writer)}
        ended = subprocess.run([program], env=environment, pass_fds=(writer,), capture_output=True, check=False)
    finally:
        os.close(writer)
        with os.fdopen(reader, "rb") as file:
            report = file.read()
    return (ended.stdout, ended.stderr, ended.returncode), bool(report)


def refused_in_turn(program):
    """Yields, for each growth, its number and the outcome of the run in which it was refused."""
    number = 1
    outcome, was_refused = run_refusing(program, number)
    while was_refused:
        yield number, outcome
        number += 1
        outcome, was_refused = run_refusing(program, number)


def reports(program):
    """Returns the outcome of a run without a refusal, and that of a run with the same states whose step was refused."""
    plain = subprocess.run([program], capture_output=True, check=False)
    return (plain.stdout, plain.stderr, 0), (plain.stdout, plain.stderr.replace(b"\n0 refused\n", b"\n1 refused\n"), 0)


def main(words):
    program = os.path.abspath(words[0]) if words else BUILT
    if len(words) > 1 or not os.access(program, os.X_OK):
        print("usage: refused_steps.py [PROGRAM]", file=sys.stderr)
        return 2
    plain, again = reports(program)
    number = in_steps = wrong = 0
    for number, outcome in refused_in_turn(program):
        in_steps += outcome == again
        if outcome not in (again, plain, NOTHING_REPORTED):
            wrong += 1
            print(f"growth {number}: {outcome}")
    print(f"{number} growths refused, {in_steps} of them in a step, {wrong} ended wrongly")
    return int(bool(wrong) or not in_steps)


if __name__ == "__main__":
    sys.exit(main(sys.argv[1:]))
