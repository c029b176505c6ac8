#!/usr/bin/env python3
"""Measures how the time and the memory of `optplan check-sas` grow with the number of closed states of a certificate.

    check_sas.py [OPTPLAN]

OPTPLAN is the program's file; without it, the one that ../optplan has built. Each certificate is made by
generate_certificate.py: 12 variables, 400 operators, of which 12 apply in each closed state, and no table. The program
runs three times on each. The table has a line for each:

    states      closed states
    text MB     task and certificate together, in millions of bytes
    seconds     wall time of the whole program, in the fastest run
    states/s    states divided by seconds, in thousands
    ns/next     seconds divided by the successors that are looked up, 12 for each state, in nanoseconds
    growth      growth of seconds since the line above, divided by that of the states: 1.00 is linear
    peak MB     greatest resident memory of all runs, in millions of bytes
    peak/text   peak MB divided by text MB

The status is 1 if an answer is wrong, and 2 if there is no program.
"""

import sys

import measuring
from generate_certificate import state_count

DEPTHS = [9, 10, 11, 12]
FILES = ["task.sas", "certificate.txt"]
SUCCESSORS = 12  # of each closed state


def main(arguments):
    """Measures each depth and prints the table."""
    program = measuring.program_of("check_sas.py", arguments)
    if program is None:
        return 2
    print(f"{'states':>10} {'text MB':>8} {'seconds':>8} {'states/s':>9} {'ns/next':>8} {'growth':>7} "
          f"{'peak MB':>8} {'peak/text':>9}")
    all_right = True
    before = None  # seconds for a state in the line above
    for depth in DEPTHS:
        right, text, seconds, peak = measuring.measure(
            "check_sas.py", program, "check-sas", "generate_certificate.py", FILES, depth,
            lambda _, depth=depth: f"accepted {depth + 1}")
        all_right = all_right and right
        states = state_count(depth)
        growth = f"{seconds / states / before:.2f}" if before else "-"
        print(f"{states:>10,} {text / 1e6:>8.2f} {seconds:>8.3f} {states / seconds / 1e3:>8.0f}k "
              f"{seconds / states / SUCCESSORS * 1e9:>8.0f} {growth:>7} {peak / 1e6:>8.1f} {peak / text:>9.2f}", flush=True)
        before = seconds / states
    return 0 if all_right else 1


if __name__ == "__main__":
    sys.exit(main(sys.argv[1:]))
