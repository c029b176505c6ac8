#!/usr/bin/env python3
"""Writes a certificate for a task whose tables have the value 0 everywhere, to measure the test of clause C4.

    generate_table_certificate.py TASK LIMIT TABLES CERTIFICATE

TASK is an output.sas, and CERTIFICATE the file to write. Each of the TABLES tables is a projection to random variables,
as many as LIMIT abstract states allow. All values are equal, so `optplan check-sas TASK CERTIFICATE` tests every
transition and prints `accepted 0`. Standard output gets the number of abstract states of all tables.
"""

import random
import sys


def ranges_of(lines):
    """Returns the number of values of each variable."""
    line = lines.index("end_metric") + 2
    ranges = []
    for _ in range(int(lines[line - 1])):
        ranges.append(int(lines[line + 3]))
        line += ranges[-1] + 5
    return ranges


def table(generator, ranges, limit):
    """Returns the three lines of a table, and its number of abstract states."""
    pattern, size = [], 1
    for variable in generator.sample(range(len(ranges)), len(ranges)):
        if size * ranges[variable] <= limit:
            pattern.append(variable)
            size *= ranges[variable]
    variables = " ".join(map(str, sorted(pattern)))
    return [f"table {len(pattern)} {variables}", "shares 0", f"values {size}" + " 0" * size], size


def main(arguments):
    """Writes the certificate and prints the number of abstract states of all tables."""
    if len(arguments) != 4 or not (arguments[1].isdecimal() and arguments[2].isdecimal()):
        print("usage: generate_table_certificate.py TASK LIMIT TABLES CERTIFICATE", file=sys.stderr)
        return 2
    task, limit, tables, certificate = arguments
    with open(task, encoding="utf-8") as file:
        ranges = ranges_of(file.read().split("\n"))
    generator = random.Random(7)
    out, total = ["optplan-cert 1", "sas", "bound 0", "columns 1", f"column {tables}"], 0
    for _ in range(int(tables)):
        lines, size = table(generator, ranges, int(limit))
        out += lines
        total += size
    with open(certificate, "w", encoding="ascii", newline="\n") as file:
        file.write("\n".join(out + ["closed 0", "end"]) + "\n")
    print(total)
    return 0


if __name__ == "__main__":
    sys.exit(main(sys.argv[1:]))
