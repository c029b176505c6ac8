#!/usr/bin/env python3
"""Measures how fast owners expand nodes in one thread, and how much memory a state takes.

    search.py [BENCH_SEARCH]

BENCH_SEARCH is the program's file; without it, the one that `rt run` in crates/bench_search has built. It searches the
tasks that generate_search.py makes, three times with STEPS steps and three times with twice as many; no bound ends the
search. A step of one owner is an expansion. Several owners take random steps in one thread: an expansion, a message
that is sent or taken, and others. The table has a line for each search:

    task          its kind
    owners        the number of owners
    table         the greatest number of abstract states of a table, 0 without tables
    steps         STEPS
    stored        states that are stored after twice as many steps
    seconds       wall time of the whole program with STEPS steps, in the fastest run
    steps/s       STEPS divided by the difference between the fastest runs with twice as many steps and with STEPS, in
                  thousands: without the time to read the task and to make tables, with the time to free the states
    twice         the time with twice as many steps, divided by that with STEPS
    bytes/stored  the difference between the greatest resident memories, divided by that between the stored states

Lists of states double when they are full, so bytes/stored depends on how full they are at the end of both runs. The
last lines compare, for each task without tables, the answer after CHECKED steps with that of the generator's own
search.

The status is 1 if an answer is wrong, and 2 if there is no program.
"""

import os
import re
import subprocess
import sys
import tempfile

import measuring

CHECKED = 5000
# A kind of task, the number of owners, the greatest number of abstract states of a table, and the number of steps.
SEARCHES = [
    ("random", 1, 0, 500_000),
    ("random", 1, 0, 1_000_000),
    ("random", 1, 1000, 200_000),
    ("random", 4, 0, 4_000_000),
    ("random", 64, 0, 1_000_000),
    ("logistics", 1, 0, 500_000),
    ("logistics", 1, 0, 1_000_000),
    ("logistics", 1, 100_000, 200_000),
    ("logistics", 4, 0, 4_000_000),
    ("logistics", 64, 0, 1_000_000),
]
BUILT = os.path.join(measuring.FOLDER, "..", "crates", "bench_search", "out", "bench_search")


def generate(folder, kind):
    """Makes a task. Returns the number of states that are stored after CHECKED expansions, and the least cost of those
    that are not expanded."""
    command = [sys.executable, os.path.join(measuring.FOLDER, "generate_search.py"), folder, kind, str(CHECKED)]
    return subprocess.run(command, check=True, stdout=subprocess.PIPE).stdout.decode("ascii").split()


def runs_of(program, folder, owners, table, steps):
    """Runs the program three times on a task. Returns whether each run did all steps, the number of stored states, the
    least seconds and the greatest peak in bytes."""
    right, stored, seconds, peaks = True, 0, [], []
    for _ in range(measuring.RUNS):
        output, status, took, peak = measuring.run(
            program, [os.path.join(folder, "task.sas"), str(owners), str(steps), str(table)])
        words = output.split()
        if status != 0 or len(words) < 3 or words[0] != str(steps) or not words[2].isdecimal():
            right = False
            print(f"search.py: expected {steps} steps and status 0, got {output[:200]!r} and status {status}", file=sys.stderr)
        else:
            stored = int(words[2])
        seconds.append(took)
        peaks.append(peak)
    return right, stored, min(seconds), max(peaks)


def measure(program, folder, kind, owners, table, steps):
    """Measures a search and prints its line. Returns whether each answer was right."""
    right, stored, seconds, peak = runs_of(program, folder, owners, table, steps)
    also_right, stored_then, seconds_then, peak_then = runs_of(program, folder, owners, table, 2 * steps)
    rate = steps / (seconds_then - seconds) / 1e3 if seconds_then > seconds else float("nan")
    each = (peak_then - peak) / (stored_then - stored) if stored_then > stored else float("nan")
    print(f"{kind:<9} {owners:>6} {table:>7,} {steps:>9,} {stored_then:>10,} {seconds:>8.3f} {rate:>7.0f}k {seconds_then / seconds:>6.2f} "
          f"{each:>12.0f}", flush=True)
    return right and also_right


def is_right(program, folder, kind, wanted):
    """Returns whether the answer after CHECKED steps of one owner without tables is that of the generator's search."""
    expected = [str(CHECKED), *wanted]
    output, status, _, _ = measuring.run(program, [os.path.join(folder, "task.sas"), "1", str(CHECKED), "0"])
    right = re.findall(r"\d+", output) == expected and status == 0
    print(f"{kind}: {output.strip()}, as expected" if right else f"{kind}: expected {expected}, got {output[:200]!r}, status {status}")
    return right


def main(arguments):
    """Measures each search and prints the table."""
    program = measuring.program_of("search.py", arguments, "BENCH_SEARCH", BUILT, "`rt run` in crates/bench_search builds it")
    if program is None:
        return 2
    print(f"{'task':<9} {'owners':>6} {'table':>7} {'steps':>9} {'stored':>10} {'seconds':>8} {'steps/s':>8} {'twice':>6} {'bytes/stored':>12}")
    all_right = True
    with tempfile.TemporaryDirectory() as top:
        folders, wanted = {}, {}
        for kind, owners, table, steps in SEARCHES:
            if kind not in folders:
                folders[kind] = os.path.join(top, kind)
                os.mkdir(folders[kind])
                wanted[kind] = generate(folders[kind], kind)
            all_right = measure(program, folders[kind], kind, owners, table, steps) and all_right
        for kind, folder in folders.items():
            all_right = is_right(program, folder, kind, wanted[kind]) and all_right
    return 0 if all_right else 1


if __name__ == "__main__":
    sys.exit(main(sys.argv[1:]))
