#!/usr/bin/env python3
"""Measures whole runs of `solve-sas` with one worker, without and with a certificate, beside another planner.

    whole.py OPTPLAN [--tables goal|staged] --baseline PROGRAM FILE..

OPTPLAN is the program's file, and each FILE an output.sas. PROGRAM is the other planner. It is called as

    PROGRAM pdb FILE --quiet    with tables of at most 100,000 abstract states (--tables goal, which is the default)
    PROGRAM FILE --quiet        in stages (--tables staged)

and is to print a line `cost N`. Each program has one worker and the processors that this script may use
(one with `taskset -c 0`). Runs alternate. A line for each file has

    task        the file's name
    cost        of a cheapest plan
    seconds     wall time of the whole run, in the fastest of three runs
    with cert   the same with --cert
    baseline    seconds of PROGRAM
    ratio, with cert    seconds without and with a certificate, divided by those of PROGRAM
    MB          of the certificate
    check-sas   seconds of check-sas on it

and the last line has the geometric means of both ratios. The status is 2 if the arguments are wrong, and 1 if answers
differ, a program fails, or a certificate is not accepted for the cost.
"""

import os
import re
import sys
import tempfile

import measuring
from stages import LEAST_SECONDS, mean_of, ratio_of

COST = re.compile(r"^; cost = (\d+) ", re.MULTILINE)
BESIDE = re.compile(r"^cost (\d+)$", re.MULTILINE)


class Fault(Exception):
    """A program failed, or answers differ."""


def timed(command, cost_line=None):
    """Returns what a call prints as the cost, or all that it prints, and its seconds."""
    output, status, seconds, _ = measuring.run(command[0], command[1:])
    found = cost_line.search(output) if cost_line else None
    if status or (cost_line and not found):
        raise Fault(f"{' '.join(command)}: status {status}, {output[-100:]!r}")
    return found[1] if found else output.strip(), seconds


def measured(program, baseline, tables, file, cert):
    """Returns a task's cost, the least seconds without a certificate, with one, of the other planner, and of the check."""
    solve = [program, "solve-sas", file, "--workers", "1", "--tables", tables]
    beside = [baseline, *(["pdb"] if tables == "goal" else []), file, "--quiet"]
    runs = []
    for _ in range(measuring.RUNS):
        calls = timed(solve, COST), timed([*solve, "--cert", cert], COST), timed(beside, BESIDE), timed([program, "check-sas", file, cert])
        costs = {it[0] for it in calls[:3]}
        if len(costs) > 1 or calls[3][0] != f"accepted {calls[0][0]}":
            raise Fault(f"{file}: costs {' '.join(sorted(costs))}, {calls[3][0]}")
        runs.append([it[1] for it in calls])
    return calls[0][0], *map(min, zip(*runs))


def main(arguments):
    """Measures each file and prints the lines."""
    tables = measuring.value_in(arguments, "--tables", "goal")
    given = measuring.compared("whole.py", "OPTPLAN", True, arguments)
    rows, is_right = [], True
    print(f"{'task':<16} {'cost':>7} {'seconds':>8} {'with cert':>9} {'baseline':>8} {'ratio':>6} {'with cert':>9} {'MB':>6} {'check-sas':>9}")
    with tempfile.TemporaryDirectory() as folder:
        for file in given.files:
            cert = os.path.join(folder, "cert")
            try:
                cost, alone, with_cert, beside, check = measured(given.program, given.baseline, tables, file, cert)
            except Fault as fault:
                print(f"whole.py: {fault}", file=sys.stderr)
                is_right = False
                continue
            rows.append([ratio_of(it, beside, LEAST_SECONDS) for it in (alone, with_cert)])
            name = os.path.splitext(os.path.basename(file))[0]
            print(f"{name:<16} {cost:>7} {alone:>8.3f} {with_cert:>9.3f} {beside:>8.3f} {rows[-1][0]:>6.2f} {rows[-1][1]:>9.2f} "
                  f"{os.path.getsize(cert) / 1e6:>6.1f} {check:>9.3f}", flush=True)
    print("geometric means: ratio {:.2f}, with cert {:.2f}".format(*(mean_of(it) for it in zip(*rows))) if rows else "no task")
    return 0 if is_right else 1


if __name__ == "__main__":
    sys.exit(main(sys.argv[1:]))
