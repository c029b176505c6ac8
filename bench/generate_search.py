#!/usr/bin/env python3
"""Writes a finite-domain task for searches, the same one at each call.

    generate_search.py FOLDER KIND STEPS

FOLDER gets task.sas. KIND is one of two:

    random      12 variables of 4 to 6 values, and 400 operators, made with the outputs of SplitMix64 from seed 1: each
                has 2 or 3 preconditions, changes 1 or 2 of their variables, and costs 1 to 9. The goal is the last
                value of each variable.
    logistics   2 trucks and 6 packages, all at one of 7 places, which are on a ring with two roads across. A truck
                drives along a road at the cost of its length, 1 to 9; to load or unload a package costs 1. Each package
                has a goal. All 7 ** 2 * (7 + 2) ** 6 = 26,040,609 states are reachable.

Standard output gets two numbers: the states that are stored, and the least cost of those that are not expanded, after
STEPS expansions without a heuristic, in the order of cost, number of operators, and time of the first arrival. A search
in this script counts them, at about 0.2 ms an expansion.
"""

import heapq
import os
import sys

from generate_tables import split_mix
from sas_lines import task_lines, transition_lines

RANGES = [4] * 10 + [5, 6]
OPERATORS, GREATEST_COST = 400, 9
PLACES, TRUCKS, PACKAGES = 7, 2, 6
ROADS = [(place, (place + 1) % PLACES) for place in range(PLACES)] + [(0, 3), (2, 5)]


def random_operators():
    """Yields random operators: each with its name, prevail conditions, effects and cost."""
    outputs = split_mix(1)
    for number in range(OPERATORS):
        variables = []
        while len(variables) < 2 + number % 2:
            variable = next(outputs) % len(RANGES)
            if variable not in variables:
                variables.append(variable)
        before = [next(outputs) % RANGES[variable] for variable in variables]
        effects = 1 + next(outputs) % 2
        after = [(value + 1 + next(outputs) % (RANGES[variable] - 1)) % RANGES[variable]
                 for variable, value in zip(variables[:effects], before)]
        yield (f"change {number}", list(zip(variables[effects:], before[effects:])),
               list(zip(variables[:effects], before, after)), 1 + next(outputs) % GREATEST_COST)


def logistics_operators():
    """Yields drives, loads and unloads. A package's value is its place or, from PLACES on, its truck."""
    outputs = split_mix(1)
    for one, other in ROADS:
        length = 1 + next(outputs) % GREATEST_COST
        for truck in range(TRUCKS):
            yield f"drive {truck} {one} {other}", [], [(truck, one, other)], length
            yield f"drive {truck} {other} {one}", [], [(truck, other, one)], length
    for package in range(TRUCKS, TRUCKS + PACKAGES):
        for truck in range(TRUCKS):
            for place in range(PLACES):
                yield f"load {package} {truck} {place}", [(truck, place)], [(package, place, PLACES + truck)], 1
                yield f"unload {package} {truck} {place}", [(truck, place)], [(package, PLACES + truck, place)], 1


def task_of(kind):
    """Returns the ranges, goals and operators of a kind of task."""
    if kind == "random":
        return RANGES, [(variable, values - 1) for variable, values in enumerate(RANGES)], list(random_operators())
    ranges = [PLACES] * TRUCKS + [PLACES + TRUCKS] * PACKAGES
    goals = [(TRUCKS + package, 1 + package) for package in range(PACKAGES)]
    return ranges, goals, list(logistics_operators())


def searched(ranges, operators, steps):
    """Returns the number of states that are stored after this many expansions, and the least cost of those that are not
    expanded."""
    rows = [(prevails + [(variable, before) for variable, before, _ in effects],
             [(variable, after) for variable, _, after in effects], cost) for _, prevails, effects, cost in operators]
    initial = (0,) * len(ranges)
    known, ranks, waiting = {initial: 0}, [(0, 0)], [(0, 0, 0, initial)]
    for _ in range(steps):
        cost, length, place, state = heapq.heappop(waiting)
        for needed, changes, price in rows:
            if any(state[variable] != value for variable, value in needed):
                continue
            after = list(state)
            for variable, value in changes:
                after[variable] = value
            after, rank = tuple(after), (cost + price, length + 1)
            if after not in known:
                known[after] = len(ranks)
                ranks.append(rank)
            elif rank < ranks[known[after]]:
                ranks[known[after]] = rank
            else:
                continue
            heapq.heappush(waiting, (*rank, known[after], after))
        while waiting and waiting[0][:2] != ranks[waiting[0][2]]:
            heapq.heappop(waiting)
    return len(ranks), waiting[0][0]


def main(arguments):
    """Writes the file and prints the two numbers."""
    if len(arguments) != 3 or arguments[1] not in ("random", "logistics") or not arguments[2].isdecimal():
        print("usage: generate_search.py FOLDER random|logistics STEPS", file=sys.stderr)
        return 2
    folder, kind, steps = arguments[0], arguments[1], int(arguments[2])
    ranges, goals, operators = task_of(kind)
    lines = task_lines(1, "value", ranges, goals, [transition_lines(*operator) for operator in operators])
    with open(os.path.join(folder, "task.sas"), "w", encoding="ascii", newline="\n") as file:
        file.writelines(line + "\n" for line in lines)
    print(*searched(ranges, operators, steps))
    return 0


if __name__ == "__main__":
    sys.exit(main(sys.argv[1:]))
