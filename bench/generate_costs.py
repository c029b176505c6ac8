#!/usr/bin/env python3
"""Writes an output.sas with other costs, for the benchmarks of searches.

    generate_costs.py FILE zero|large|wide > OTHER

Each operator's cost is chosen by an output of SplitMix64 from seed 1, the same at each call: with `zero` it is 0 for about
a third of the operators and else 1, with `large` from 1 to 1,000,000, and with `wide` 1, 100 or 10,000.
"""

import sys

from generate_tables import split_mix

DRAWS = {"zero": lambda it: min(it % 3, 1), "large": lambda it: 1 + it % 1_000_000, "wide": lambda it: 100 ** (it % 3)}


def with_costs(lines, draw):
    """Yields the lines with the metric 1 and another cost at the end of each operator."""
    outputs = split_mix(1)
    lines = list(lines)
    for number, line in enumerate(lines):
        if number and lines[number - 1] == "begin_metric":
            yield "1"
        elif number + 1 < len(lines) and lines[number + 1] == "end_operator":
            yield str(draw(next(outputs)))
        else:
            yield line


def main(arguments):
    if len(arguments) != 2 or arguments[1] not in DRAWS:
        print(__doc__)
        return 0 if arguments == ["--help"] else 2
    with open(arguments[0], encoding="ascii") as file:
        for line in with_costs((it.rstrip("\n") for it in file), DRAWS[arguments[1]]):
            print(line)
    return 0


if __name__ == "__main__":
    sys.exit(main(sys.argv[1:]))
