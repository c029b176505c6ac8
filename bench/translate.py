#!/usr/bin/env python3
"""Measures how the time and the memory of `optplan translate` grow with the number of packages of a logistics task.

    translate.py [OPTPLAN]

OPTPLAN is the program's file; without it, the one that ../optplan has built. It translates a task that
generate_grounding.py makes, three times for each size. Each truck, airplane and package is a variable, and each action
an operator; both numbers are compared with those of the text. The table has a line for each size:

    packages    packages of the task
    actions     ground actions
    variables   variables of the text
    text MB     the text that is printed, in millions of bytes
    seconds     wall time of the whole program, in the fastest run
    us/action   seconds divided by the actions, in microseconds
    growth      growth of seconds since the line above, divided by that of the actions: 1.00 is linear
    peak MB     greatest resident memory of all runs, in millions of bytes

The status is 1 if an answer is wrong, and 2 if there is no program.
"""

import os
import sys
import tempfile

import measuring

SIZES = [66, 132, 300, 600]
TRUCKS_AND_AIRPLANES = 42
FILES = ["domain.pddl", "problem.pddl"]


def counts(text):
    """Returns the number of variables, which is in line 7, and the number of operators."""
    lines = text.split("\n", 7)
    return int(lines[6]) if len(lines) > 6 else -1, text.count("\nbegin_operator\n")


def main(arguments):
    """Measures each size and prints the table."""
    program = measuring.program_of("translate.py", arguments)
    if program is None:
        return 2
    print(f"{'packages':>8} {'actions':>8} {'variables':>9} {'text MB':>8} {'seconds':>8} {'us/action':>9} {'growth':>7} {'peak MB':>8}")
    all_right = True
    before = None  # seconds for an action in the line above
    for size in SIZES:
        with tempfile.TemporaryDirectory() as folder:
            actions = int(measuring.generate("generate_grounding.py", folder, size).split()[2])
            words = ["translate"] + [os.path.join(folder, file) for file in FILES]
            runs = [measuring.run(program, words) for _ in range(measuring.RUNS)]
        wanted = (size + TRUCKS_AND_AIRPLANES, actions)
        for text, status, _, _ in runs:
            if status != 0 or counts(text) != wanted:
                all_right = False
                print(f"translate.py: size {size}: expected {wanted} and status 0, got {counts(text)} and {status}", file=sys.stderr)
        seconds, peak = min(run[2] for run in runs), max(run[3] for run in runs)
        each = seconds / actions
        growth = f"{each / before:.2f}" if before else "-"
        print(f"{size:>8} {actions:>8,} {wanted[0]:>9} {len(runs[0][0]) / 1e6:>8.1f} {seconds:>8.3f} {each * 1e6:>9.2f} {growth:>7} "
              f"{peak / 1e6:>8.1f}", flush=True)
        before = each
    return 0 if all_right else 1


if __name__ == "__main__":
    sys.exit(main(sys.argv[1:]))
