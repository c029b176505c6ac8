#!/usr/bin/env python3
"""Solves some small tasks by every number of workers from 1 to 64, each in a thread of its own, several times.

    workers.py OPTPLAN [TIMES]

The plan must be valid and have the cost worked out by hand, and the checker must accept the certificate. TIMES is 20 if
it is not given. Wrong answers are printed, and the last line is the number of searches and of wrong ones. The status is
1 if there is one. Takes some minutes.
"""

import concurrent.futures
import os
import sys

from program import checked, validated, wanted
from planning import solved
from test_search_threads import TASKS
from texts import ROAD_DOMAIN, ROAD_TO_NOWHERE

WORKERS = range(1, 65)


def wrong_plan(domain, problem, outcome, cost):
    """Returns what is wrong with the answer for a task whose cheapest plans have this cost, or None."""
    if (outcome.err, outcome.status, sorted(outcome.files)) != (b"", 0, ["c", "l"]) or outcome.files["l"] != outcome.out:
        return outcome
    if validated(domain, problem, outcome.out) != wanted(f"valid {cost}"):
        return "another plan"
    return wrong_bound(domain, problem, outcome, cost)


def wrong_bound(domain, problem, outcome, bound):
    """Returns what is wrong with the certificate of an answer for this bound, or None."""
    verdict = checked(domain, problem, outcome.files.get("c", b""))
    return None if verdict == wanted(f"accepted {bound}") else verdict


def wrong_answer(search):
    """Returns what is wrong with the answer of a search, or None."""
    (domain, problem, cost), workers, ring = search
    outcome = solved(domain, problem, workers=workers, ring=ring)
    if cost is not None:
        return wrong_plan(domain, problem, outcome, cost)
    if (outcome.out, outcome.err, outcome.status) != (b"unsolvable\n", b"", 4):
        return outcome
    return wrong_bound(domain, problem, outcome, "unsolvable")


def searches(times):
    """Yields each task with each number of workers, `times` times, alternately with links for one message and for
    64."""
    for task in (*TASKS, (ROAD_DOMAIN, ROAD_TO_NOWHERE, None)):
        for workers in WORKERS:
            for number in range(times):
                yield task, workers, (1, 64)[number % 2]


def main(words):
    if not 1 <= len(words) <= 2 or not os.access(words[0], os.X_OK):
        print("usage: workers.py OPTPLAN [TIMES]", file=sys.stderr)
        return 2
    os.environ["OPTPLAN"] = os.path.abspath(words[0])
    asked = list(searches(int(words[1]) if words[1:] else 20))
    wrong = 0
    with concurrent.futures.ThreadPoolExecutor(len(os.sched_getaffinity(0))) as pool:
        for (task, workers, ring), answer in zip(asked, pool.map(wrong_answer, asked)):
            if answer is not None:
                wrong += 1
                print(f"{workers} workers, rings of {ring}, {task[1].split(')')[0]}): {answer}")
    print(f"{len(asked)} searches, {wrong} wrong")
    return int(bool(wrong))


if __name__ == "__main__":
    sys.exit(main(sys.argv[1:]))
