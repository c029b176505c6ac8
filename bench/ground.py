#!/usr/bin/env python3
"""Measures how the time and the memory of grounding grow with the number of packages of a logistics task.

    ground.py [BENCH_GROUNDING]

BENCH_GROUNDING is the program's file; without it, the one that `rt run` in crates/bench_grounding has built. It reads a
task that generate_grounding.py makes, grounds it and counts; it runs three times on each. The first line is another
task: a schema of 8 parameters over 60 objects, of which static preconditions leave 5,000 bindings. The table has a line
for each:

    packages    packages of the task
    atoms       relaxed reachable atoms
    actions     ground actions over them
    seconds     wall time of the whole program, in the fastest run
    us/action   seconds divided by the actions, in microseconds
    growth      growth of seconds since the line above, divided by that of the actions: 1.00 is linear
    peak MB     greatest resident memory of all runs, in millions of bytes

The status is 1 if an answer is wrong, and 2 if there is no program.
"""

import os
import sys

import measuring

SIZES = [0, 75, 150, 300, 600]
FILES = ["domain.pddl", "problem.pddl"]
BUILT = os.path.join(measuring.FOLDER, "..", "crates", "bench_grounding", "out", "bench_grounding")


def main(arguments):
    """Measures each size and prints the table."""
    program = measuring.program_of("ground.py", arguments, "BENCH_GROUNDING", BUILT, "`rt run` in crates/bench_grounding builds it")
    if program is None:
        return 2
    print(f"{'packages':>8} {'atoms':>8} {'actions':>8} {'seconds':>8} {'us/action':>9} {'growth':>7} {'peak MB':>8}")
    all_right = True
    before = None  # seconds for an action in the line above
    for size in SIZES:
        expected = []
        right, _, seconds, peak = measuring.measure(
            "ground.py", program, None, "generate_grounding.py", FILES, size, lambda line, expected=expected: expected.append(line) or line)
        all_right = all_right and right
        atoms, _, actions, _ = expected[0].split()
        each = seconds / int(actions)
        growth = f"{each / before:.2f}" if before else "-"
        print(f"{size:>8} {int(atoms):>8,} {int(actions):>8,} {seconds:>8.3f} {each * 1e6:>9.2f} {growth:>7} {peak / 1e6:>8.1f}", flush=True)
        before = each if size else None
    return 0 if all_right else 1


if __name__ == "__main__":
    sys.exit(main(sys.argv[1:]))
