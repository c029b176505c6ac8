#!/usr/bin/env python3
"""Measures how the time and the memory of `optplan validate` grow with the size of a task and its plan.

    validate.py [OPTPLAN]

OPTPLAN is the program's file; without it, the one that ../optplan has built. Each task and its plan are made by
generate.py, which computes the plan's cost. The program runs three times on each. The table has a line for each size:

    items       items of `:init`, and steps of the plan
    text MB     domain, problem and plan together, in millions of bytes
    seconds     wall time of the whole program, in the fastest run
    MB/s        text MB divided by seconds
    growth      seconds divided by those of the line above, which has half the items: 2.00 is linear
    peak MB     greatest resident memory of all runs, in millions of bytes
    peak/text   peak MB divided by text MB

The status is 1 if an answer is wrong, and 2 if there is no program.
"""

import sys

import measuring

SIZES = [125_000, 250_000, 500_000, 1_000_000]  # items of :init, and steps
FILES = ["domain.pddl", "problem.pddl", "plan.txt"]


def main(arguments):
    """Measures each size and prints the table."""
    program = measuring.program_of("validate.py", arguments)
    if program is None:
        return 2
    print(f"{'items':>9} {'text MB':>8} {'seconds':>8} {'MB/s':>8} {'growth':>7} {'peak MB':>8} {'peak/text':>9}")
    all_right = True
    before = None  # seconds of the line above
    for size in SIZES:
        right, text, seconds, peak = measuring.measure(
            "validate.py", program, "validate", "generate.py", FILES, size, lambda cost: f"valid {cost}")
        all_right = all_right and right
        growth = f"{seconds / before:.2f}" if before else "-"
        print(f"{size:>9,} {text / 1e6:>8.2f} {seconds:>8.3f} {text / 1e6 / seconds:>8.2f} {growth:>7} "
              f"{peak / 1e6:>8.1f} {peak / text:>9.2f}", flush=True)
        before = seconds
    return 0 if all_right else 1


if __name__ == "__main__":
    sys.exit(main(sys.argv[1:]))
