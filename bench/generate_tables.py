#!/usr/bin/env python3
"""Writes a finite-domain task for tables, the same one at each call.

    generate_tables.py FOLDER KIND SIZE

FOLDER gets task.sas. KIND is one of three:

    one       three variables of SIZE values, 2 to 91: the last counts up to its goal, the second has to walk from end
              to end between two of its steps, and the first before each turn of the second. 500 operators: those, and
              others that lower the last variable, 50 of them from any state. One table has all SIZE ** 3 abstract
              states.
    many      64 pairs of variables of SIZE values, 2 to 91, of which one counts up to its goal, and the other has to
              walk from end to end between two of its steps. There are 8 columns of 64 tables of SIZE ** 2 abstract
              states.
    classes   one variable of SIZE values, 1,001 to 65,536, with 450 operators from value to value up to its goal, the
              last one, and 50 from any value to the first. A table of at most 1,000 abstract states is a domain
              abstraction.

Standard output gets three numbers: the tables of all columns, the lower bound of the initial state, which is the cost
of a cheapest plan, and for `many` the greatest bound of 1,000 random states (SplitMix64 from seed 1), else 0.
"""

import os
import sys

from sas_lines import operator_lines, task_lines

OPERATORS, FROM_ANYWHERE, PAIRS, COLUMNS, STATES = 500, 50, 64, 8, 1000
GREATEST_SIZE = 91  # for which 500 operators suffice
CLASSES, GREATEST_RANGE = 1000, 65_536  # the greatest range of a variable
WORD = (1 << 64) - 1


def end_of(step, size):
    """Returns the value that the walking variable must have for a step of the counting one."""
    return 0 if step % 2 == 0 else size - 1


def pair_operators(name, walker, counter, size, gate):
    """Yields the operators of a pair of variables. `gate` returns the prevail conditions of a turn of the walker at an
    end."""
    for step in range(size - 1):
        yield operator_lines(f"count {name} {step}", [(walker, end_of(step, size))], counter, step, step + 1)
        yield operator_lines(f"up {name} {step}", gate(step == 0, size - 1), walker, step, step + 1)
        yield operator_lines(f"down {name} {step}", gate(step == size - 2, 0), walker, step + 1, step)


def one_operators(size):
    """Returns the operators of the task with one table."""
    operators = list(pair_operators("b", 1, 2, size, lambda turns, value: [(0, value)] if turns else []))
    for step in range(size - 1):
        operators.append(operator_lines(f"up a {step}", [], 0, step, step + 1))
        operators.append(operator_lines(f"down a {step}", [], 0, step + 1, step))
    for place in range(FROM_ANYWHERE):
        operators.append(operator_lines(f"reset {place}", [], 2, -1, 0))
    for place in range(OPERATORS - len(operators)):
        before = 1 + place % (size - 1)
        operators.append(operator_lines(f"lower {place}", [], 2, before, place % before))
    return operators


def classes_operators(size):
    """Yields the operators of the task with one variable: steps up to its last value, and resets to its first."""
    steps = OPERATORS - FROM_ANYWHERE
    for step in range(steps):
        yield operator_lines(f"step {step}", [], 0, step, step + 1 if step + 1 < steps else size - 1)
    for place in range(FROM_ANYWHERE):
        yield operator_lines(f"reset {place}", [], 0, -1, 0)


def distance(walker, counter, size):
    """Returns the cost of a cheapest plan for a pair of variables: the steps of the counting one, and walks to the
    values that they need."""
    total = 0
    for step in range(counter, size - 1):
        total += abs(walker - end_of(step, size)) + 1
        walker = end_of(step, size)
    return total


def split_mix(state):
    """Yields the outputs of SplitMix64 from this state."""
    while True:
        state = (state + 0x9E3779B97F4A7C15) & WORD
        word = ((state ^ (state >> 30)) * 0xBF58476D1CE4E5B9) & WORD
        word = ((word ^ (word >> 27)) * 0x94D049BB133111EB) & WORD
        yield word ^ (word >> 31)


def greatest_of_random(size):
    """Returns the greatest sum over the pairs of the costs of random states."""
    outputs = split_mix(1)
    return max(sum(distance(next(outputs) % size, next(outputs) % size, size) for _ in range(PAIRS)) for _ in range(STATES))


def main(arguments):
    """Writes the file and prints the three numbers."""
    sizes = {"one": (2, GREATEST_SIZE), "many": (2, GREATEST_SIZE), "classes": (CLASSES + 1, GREATEST_RANGE)}
    least, greatest = sizes.get(arguments[1], (1, 0)) if len(arguments) == 3 else (1, 0)
    if greatest == 0 or not arguments[2].isdecimal() or not least <= int(arguments[2]) <= greatest:
        print("usage: generate_tables.py FOLDER one|many|classes SIZE, with a size from 2 to 91, of classes from 1,001 to 65,536",
              file=sys.stderr)
        return 2
    folder, kind, size = arguments[0], arguments[1], int(arguments[2])
    if kind == "one":
        lines = task_lines(1, "value", [size] * 3, [(2, size - 1)], one_operators(size))
        # Each walk of the second variable from end to end needs one of the first before it.
        numbers = 1, (size - 1) + 2 * (size - 2) * (size - 1), 0
    elif kind == "classes":
        lines = task_lines(1, "value", [size], [(0, size - 1)], list(classes_operators(size)))
        numbers = 1, OPERATORS - FROM_ANYWHERE, 0
    else:
        operators = [lines for pair in range(PAIRS)
                     for lines in pair_operators(str(pair), 2 * pair, 2 * pair + 1, size, lambda turns, value: [])]
        lines = task_lines(1, "value", [size] * (2 * PAIRS), [(2 * pair + 1, size - 1) for pair in range(PAIRS)], operators)
        numbers = PAIRS * COLUMNS, PAIRS * distance(0, 0, size), greatest_of_random(size)
    with open(os.path.join(folder, "task.sas"), "w", encoding="ascii", newline="\n") as file:
        file.writelines(line + "\n" for line in lines)
    print(*numbers)
    return 0


if __name__ == "__main__":
    sys.exit(main(sys.argv[1:]))
