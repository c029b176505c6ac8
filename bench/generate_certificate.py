#!/usr/bin/env python3
"""Writes a finite-domain task and a certificate with many closed states for it, the same ones at each call.

    generate_certificate.py FOLDER DEPTH

FOLDER gets task.sas and certificate.txt. The task has 12 counters that begin at 0, four with 35 values and eight with
34, and 400 operators, each of which raises one counter by one from one value. The goal is that all counters have their
greatest values, which costs 400. The certificate has the bound DEPTH + 1, with a DEPTH of 0 to 20: it closes every
state whose counters sum to at most DEPTH, at that sum as its cost, and has no table. Standard output gets the number of
closed states.
"""

import os
import sys

from sas_lines import operator_lines, task_lines

RANGES = [35] * 4 + [34] * 8
GREATEST_DEPTH = 20


def sas_lines():
    """Returns the lines of the task's text."""
    goals = [(variable, values - 1) for variable, values in enumerate(RANGES)]
    operators = [operator_lines(f"raise counter{variable} {value}", [], variable, value, value + 1)
                 for variable, values in enumerate(RANGES) for value in range(values - 1)]
    return task_lines(0, "counter", RANGES, goals, operators)


def closed_lines(depth, counters, values, total):
    """Yields the lines of the states that continue these values with this many more counters, in lexicographic
    order."""
    if counters == 0:
        yield f"{total}{values}"
        return
    for value in range(depth - total + 1):
        yield from closed_lines(depth, counters - 1, f"{values} {value}", total + value)


def state_count(depth):
    """Returns the number of states whose sum is at most the depth."""
    count = 1
    for counter in range(1, len(RANGES) + 1):
        count = count * (depth + counter) // counter
    return count


def main(arguments):
    """Writes the two files and prints the number of closed states."""
    if len(arguments) != 2 or not arguments[1].isdecimal() or not 0 <= int(arguments[1]) <= GREATEST_DEPTH:
        print(f"usage: generate_certificate.py FOLDER DEPTH, with a depth of at most {GREATEST_DEPTH}", file=sys.stderr)
        return 2
    folder, depth = arguments[0], int(arguments[1])
    with open(os.path.join(folder, "task.sas"), "w", encoding="ascii", newline="\n") as file:
        file.writelines(line + "\n" for line in sas_lines())
    with open(os.path.join(folder, "certificate.txt"), "w", encoding="ascii", newline="\n") as file:
        file.write(f"optplan-cert 1\nsas\nbound {depth + 1}\ncolumns 0\nclosed {state_count(depth)}\n")
        file.writelines(line + "\n" for line in closed_lines(depth, len(RANGES), "", 0))
        file.write("end\n")
    print(state_count(depth))
    return 0


if __name__ == "__main__":
    sys.exit(main(sys.argv[1:]))
