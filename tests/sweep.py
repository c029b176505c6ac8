#!/usr/bin/env python3
"""Damages the examples in every way of `damages.py`, and compares the program's answers with those of a second reader.

    sweep.py OPTPLAN

The answers for a finite-domain task and a certificate must be those of `second_reading.py`, byte for byte. A
certificate for a planning task is read by it too, and judged by the program alone. A domain, a problem or a plan with
unchanged tokens must have the same verdict; for any other, the program must print a verdict or a named fault at a place
within the text. Wrong answers are printed, and the last line is the number of texts and of wrong answers. The status is
1 if there is one. Takes some minutes.
"""

import os
import re
import sys

from damages import damaged_bytes, damaged_lines, tokens
from program import checked, checked_sas, example, validated, wanted
from second_reading import certificate_fault, check_sas
from test_search_limits import SMALL_TASKS

FINITE_DOMAIN = (("road", "closed.cert"), ("road", "table.cert"), ("road", "classes.cert"))
PLANNING_CERTIFICATES = (("road", "planning.cert"), ("lamp", "closed.cert"), ("lamp", "tables.cert"), ("drive", "classes.cert"))
# Examples with the costs of their plans. In `logistics` two trucks drive three times and a plane flies twice, and a package is
# loaded and unloaded three times each.
PLANNING = SMALL_TASKS | {"logistics": 11}
VERDICT = re.compile(rb"(valid \d+|no such action \d+|not applicable \d+ \(.+\)|goal open \(.+\))\n")
CLAUSE = re.compile(rb"(accepted (\d+|unsolvable)|rejected C[1-8]( [^\n]*)?)\n")
FAULT = re.compile(rb"optplan: F(\d+) [A-Za-z]+( [^\n ]+)?( (domain|problem|plan|cert)( (\d+))?)?\n")


class Sweep:
    """Tries every `step`-th damage. Counts the texts, and stores those that were answered wrongly, with the answers."""

    def __init__(self, step=1):
        self.step, self.tried, self.wrong = step, 0, []

    def damages(self, text):
        yield from damaged_bytes(text, self.step)
        yield from damaged_lines(text, self.step, self.step // 2)

    def expect(self, is_right, text, outcome):
        self.tried += 1
        if not is_right:
            self.wrong.append((text, outcome))

    def damage_finite_domain(self, name, certificate):
        """Tries damages of a task, and of a certificate for it."""
        sas, cert = example(name, "task.sas").encode(), example(name, certificate).encode()
        for given in [(it, cert) for it in self.damages(sas)] + [(sas, it) for it in self.damages(cert)]:
            outcome = checked_sas(*given)
            self.expect(outcome == wanted(check_sas(*given)), given, outcome)
        return self

    def damage_planning_certificate(self, name, certificate):
        """Tries damages of a certificate for a planning task."""
        domain, problem = example(name, "domain.pddl"), example(name, "problem.pddl")
        for cert in self.damages(example(name, certificate).encode()):
            outcome, fault = checked(domain, problem, cert), certificate_fault(cert)
            is_other_kind = fault is None and cert.split(b"\n")[1] == b"sas"
            if fault or is_other_kind:
                self.expect(outcome == wanted(fault or "F51 Expected cert 2"), cert, outcome)
            else:
                self.expect(outcome.err == b"" and CLAUSE.fullmatch(outcome.out) and outcome.status in (0, 3), cert, outcome)
        return self

    def damage_planning(self, name):
        """Tries damages of a domain, a problem and a plan."""
        texts = [example(name, it).encode() for it in ("domain.pddl", "problem.pddl", "plan.txt")]
        first, valid = validated(*texts), wanted(f"valid {PLANNING[name]}")
        self.expect(first == valid, texts, first)
        for place, text in enumerate(texts):
            same = tokens(text)
            for damaged in self.damages(text):
                given = [*texts[:place], damaged, *texts[place + 1:]]
                outcome = validated(*given)
                self.expect(outcome == valid if tokens(damaged) == same else is_answer(outcome, given), given, outcome)
        return self


def is_answer(outcome, texts):
    """Returns whether an outcome is a verdict, or a fault at a place in a domain, a problem or a plan."""
    if outcome.status in (0, 3):
        return bool(VERDICT.fullmatch(outcome.out)) and outcome.err == b"" and outcome.out.startswith(b"valid") == (outcome.status == 0)
    found = FAULT.fullmatch(outcome.err)
    if outcome.status != 1 or outcome.out != b"" or not found:
        return False
    sizes = dict(zip((b"domain", b"problem", b"plan"), map(len, texts)))
    return found[6] is None or int(found[6]) < sizes[found[4]]


def main(arguments):
    if len(arguments) != 1:
        print("usage: sweep.py OPTPLAN", file=sys.stderr)
        return 2
    os.environ["OPTPLAN"] = os.path.abspath(arguments[0])
    sweep = Sweep()
    for names in FINITE_DOMAIN:
        sweep.damage_finite_domain(*names)
    for name, certificate in PLANNING_CERTIFICATES:
        sweep.damage_planning_certificate(name, certificate)
    for name in PLANNING:
        sweep.damage_planning(name)
    for text, outcome in sweep.wrong:
        print(f"{text!r}\n    {outcome}")
    print(f"{sweep.tried} damaged texts, {len(sweep.wrong)} answered wrongly")
    return int(bool(sweep.wrong))


if __name__ == "__main__":
    sys.exit(main(sys.argv[1:]))
