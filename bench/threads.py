#!/usr/bin/env python3
"""Measures how the time of `optplan solve` depends on the number of worker threads.

    threads.py [OPTPLAN]

OPTPLAN is the program's file; without it, the one that ../optplan has built. It solves towers of Hanoi without pattern
databases, each three times with each number of workers. All but few of the 3 ** DISCS states cost less than the 2 **
DISCS - 1 moves to the goal, so nearly every state is expanded for any number of workers, mostly once. The table has a
line for each search:

    discs       DISCS
    states      3 ** DISCS
    workers     the number of threads
    seconds     wall time of the whole program, in the fastest run: reading, translation, search, and the certificate,
                which one thread makes
    states/s    states divided by seconds
    speed       seconds of one worker divided by seconds
    peak MB     greatest resident memory of all runs, in millions of bytes

The status is 1 if an answer is wrong, and 2 if there is no program.
"""

import os
import sys
import tempfile

import measuring

DISCS = (10, 12)
WORKERS = (1, 2, 4, 8, 64)
DOMAIN = """(define (domain hanoi)
 (:requirements :typing)
 (:types disc peg - place)
 (:predicates (clear ?p - place) (on ?d - disc ?p - place) (fits ?d - disc ?p - place))
 (:action move :parameters (?d - disc ?from ?to - place)
  :precondition (and (on ?d ?from) (clear ?d) (clear ?to) (fits ?d ?to))
  :effect (and (clear ?from) (on ?d ?to) (not (on ?d ?from)) (not (clear ?to)))))
"""


def tower(discs):
    """Returns the problem of moving a tower of this many discs from peg a to peg c. Disc 0 is the smallest."""
    names = [f"d{number}" for number in range(discs)]
    fits = " ".join(f"(fits {name} {below})" for number, name in enumerate(names) for below in [*"abc", *names[number + 1:]])
    pile = " ".join(f"(on {name} {below})" for name, below in zip(names, names[1:]))
    return (f"(define (problem tower) (:domain hanoi)\n (:objects {' '.join(names)} - disc a b c - peg)\n"
            f" (:init {fits} {pile} (on {names[-1]} a) (clear {names[0]}) (clear b) (clear c))\n"
            f" (:goal (and {pile} (on {names[-1]} c))))\n")


def measure(program, folder, discs, workers):
    """Returns whether each of three runs found a cheapest plan, their least seconds and their greatest peak in
    bytes."""
    files = [os.path.join(folder, name) for name in ("domain.pddl", "problem.pddl")]
    right, seconds, peaks = True, [], []
    for _ in range(measuring.RUNS):
        output, status, took, peak = measuring.run(program, ["solve", *files, "--table", "1", "--workers", str(workers)])
        if status != 0 or not output.endswith(f"; cost = {2 ** discs - 1} (unit cost)\n"):
            right = False
            print(f"threads.py: expected cost {2 ** discs - 1} and status 0, got {output[-60:]!r} and status {status}", file=sys.stderr)
        seconds.append(took)
        peaks.append(peak)
    return right, min(seconds), max(peaks)


def main(arguments):
    """Measures each search and prints the table."""
    program = measuring.program_of("threads.py", arguments)
    if program is None:
        return 2
    print(f"{'discs':>5} {'states':>9} {'workers':>7} {'seconds':>8} {'states/s':>9} {'speed':>6} {'peak MB':>8}")
    all_right = True
    for discs in DISCS:
        with tempfile.TemporaryDirectory() as folder:
            for name, text in (("domain.pddl", DOMAIN), ("problem.pddl", tower(discs))):
                with open(os.path.join(folder, name), "w", encoding="ascii") as file:
                    file.write(text)
            alone = None
            for workers in WORKERS:
                right, seconds, peak = measure(program, folder, discs, workers)
                all_right, alone = all_right and right, alone or seconds
                print(f"{discs:>5} {3 ** discs:>9,} {workers:>7} {seconds:>8.3f} {3 ** discs / seconds:>9,.0f} {alone / seconds:>6.2f} "
                      f"{peak / 1e6:>8.1f}", flush=True)
    return 0 if all_right else 1


if __name__ == "__main__":
    sys.exit(main(sys.argv[1:]))
