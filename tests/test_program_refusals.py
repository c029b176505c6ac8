"""The system refuses one call of a run: one of every 97 growths of memory, or each growth if a text has a fault, and each
other call. `refusals.py` refuses all. Small tasks, whose answers were worked out by hand, are refused each growth, and so
are owners of states that repeat the refused step."""

import itertools
import os
import re
import shutil
import unittest

import refused_steps
from program import Outcome, ProgramTest, example, run, unread, unwritten, validated, wanted
from refusals import KINDS, OUT_OF_MEMORY, commands, is_right, refused_in_turn, run_refusing
from test_certificate_sas import edited
from test_certificate_domains import WITH_TABLE
from texts import GRIP_DOMAIN, GRIP_PROBLEM, HALF_A_ROAD, ROAD_DOMAIN, ROAD_PROBLEM, ROAD_SAS

# One growth of this many is refused, each in a run of its own.
STEP = 97


def step_of(kind, end):
    """Returns which of the calls of this kind are refused: each, or one of this many. `end` is that of the answer."""
    return STEP if kind == "growth" and not end.fault else 1


@unittest.skipUnless(shutil.which("cc"), "there is no C compiler (cc)")
class Refusals(ProgramTest):
    def test_each_command(self):
        for command, files, end in commands():
            for kind in KINDS:
                with self.subTest(command=command, kind=kind):
                    ended = list(refused_in_turn(kind, command, files, step_of(kind, end)))
                    self.assertEqual([it for it in ended if not is_right(kind, end, it[1])], [])
                    if kind != "thread" or "--workers" in command:
                        self.assertTrue(ended)


ROAD_FILES = {"d": ROAD_DOMAIN, "p": ROAD_PROBLEM}
ROAD_PLAN = Outcome(out=b"(go a b)\n(go b c)\n; cost = 2 (unit cost)\n")
UNSOLVABLE = Outcome(out=b"unsolvable\n", status=4)

# The road's certificate with the table of its distances in place of the closed states.
ROAD_TABLE = edited(example("road", "planning.cert"), WITH_TABLE)


@unittest.skipUnless(shutil.which("cc"), "there is no C compiler (cc)")
class GrowthsTest(ProgramTest):
    """Tests whose runs are refused one growth each: they have the answer worked out by hand, or are out of memory."""

    def ends_of(self, words, files):
        """Returns the outcomes of the runs that are refused each growth in turn, without those that are out of memory.
        Fails if no run is out of memory."""
        ended = [it for _, it in refused_in_turn("growth", words, files)]
        self.assertIn(OUT_OF_MEMORY, ended)
        return [it for it in ended if it != OUT_OF_MEMORY]

    def is_answered_or_out_of_memory(self, answer, words, files):
        """Fails unless each run that is refused a growth has this outcome, or is out of memory."""
        self.assertEqual([it for it in self.ends_of(words, files) if it != answer], [])

    def carries_two_balls(self, *schedule):
        """Fails unless each run that is refused a growth has one of the cheapest plans, each of seven steps, or is out of
        memory."""
        ended = self.ends_of(("solve", "d", "p", *schedule), {"d": GRIP_DOMAIN, "p": GRIP_PROBLEM})
        self.assertEqual([it for it in ended if (it.err, it.status, it.out.count(b"\n")) != (b"", 0, 8)], [])
        for plan in {it.out for it in ended}:
            self.assertTrue(plan.endswith(b"\n; cost = 7 (unit cost)\n"), plan)
            self.assertEqual(validated(GRIP_DOMAIN, GRIP_PROBLEM, plan), wanted("valid 7"))


class Growths(GrowthsTest):
    """Simulations and a check."""

    SCHEDULE = ("--simulate", "1")

    def test_of_a_task_with_one_plan(self):
        self.is_answered_or_out_of_memory(ROAD_PLAN, ("solve", "d", "p", *self.SCHEDULE), ROAD_FILES)

    def test_of_a_task_without_a_plan(self):
        self.is_answered_or_out_of_memory(UNSOLVABLE, ("solve", "d", "p", *self.SCHEDULE), ROAD_FILES | {"p": HALF_A_ROAD})

    def test_of_a_task_with_two_balls(self):
        self.carries_two_balls(*self.SCHEDULE)

    def test_of_a_check(self):
        self.is_answered_or_out_of_memory(wanted("accepted 2"), ("check", "d", "p", "c"), ROAD_FILES | {"c": ROAD_TABLE})


class GrowthsWithThreads(GrowthsTest):
    """Searches by two workers, all of which have ended when the program ends."""

    SCHEDULE = ("--workers", "2")

    def test_of_a_task_with_one_plan(self):
        self.is_answered_or_out_of_memory(ROAD_PLAN, ("solve", "d", "p", *self.SCHEDULE), ROAD_FILES)

    def test_of_a_task_without_a_plan(self):
        self.is_answered_or_out_of_memory(UNSOLVABLE, ("solve", "d", "p", *self.SCHEDULE), ROAD_FILES | {"p": HALF_A_ROAD})

    def test_of_a_task_with_two_balls(self):
        self.carries_two_balls(*self.SCHEDULE)


@unittest.skipUnless(shutil.which("cc"), "there is no C compiler (cc)")
class FailingFiles(ProgramTest):
    """A file, or a stream, that cannot be used once is named by its fault."""

    # The arguments, the files that are read, in this order, and the answer.
    READ_ROWS = [
        (("check", "d", "p", "c"), ROAD_FILES | {"c": ROAD_TABLE}, ("domain", "problem", "cert"), wanted("accepted 2")),
        (("translate", "d", "p"), ROAD_FILES, ("domain", "problem"), Outcome(out=ROAD_SAS.encode())),
    ]

    def test_files_that_fail(self):
        for words, files, read, answer in self.READ_ROWS:
            for kind in ("open", "read"):
                with self.subTest(words=words, kind=kind):
                    ended = [it for _, it in refused_in_turn(kind, words, files)]
                    # A file may be read in several calls, and calls on other files change nothing.
                    found = [it for it, _ in itertools.groupby(ended) if it != answer]
                    self.assertEqual(found, [unread(file) for file in read])

    def test_output_that_fails(self):
        for words, files, _, _ in self.READ_ROWS:
            with self.subTest(words=words):
                self.assertEqual(run_refusing("write", 1, words, files), (unwritten("output"), True))

    def test_standard_error_that_fails(self):
        # The status says all the same that a text was refused.
        for words, files, _, _ in self.READ_ROWS:
            with self.subTest(words=words):
                self.is_answered(run(*words, files=files | {"d": ")"}), "F3 StrayClose domain 0")
                self.assertEqual(run_refusing("write", 1, words, files | {"d": ")"}), (Outcome(status=1), True))


@unittest.skipUnless(shutil.which("cc") and os.access(refused_steps.BUILT, os.X_OK), "crates/bench_refusals is not built, or there is no C compiler (cc)")
class RefusedSteps(ProgramTest):
    """Owners of the states of a grid, in which a step changes one of three numbers from 0 to 3 by one, at cost 1. They
    search from (0, 0, 0) to (3, 3, 3), and repeat a step that was refused."""

    LINE = re.compile(rb"owner \d state \[(\d), (\d), (\d)\] cost (\d) steps (\d) from .+ expanded (true|false)")

    def test_states_without_a_refusal(self):
        # Each state costs the sum of its numbers, and all that cost less than the goal are expanded.
        (out, err, _), _ = refused_steps.reports(refused_steps.BUILT)
        *lines, count = err.splitlines()
        self.assertEqual((out.split()[:2], count), ([b"64", b"states"], b"0 refused"))
        found = [self.LINE.fullmatch(line) for line in lines]
        self.assertTrue(all(found), err)
        numbers = [tuple(int(number) for number in it.groups()[:5]) for it in found]
        self.assertEqual(sorted(numbers), [(*it, sum(it), sum(it)) for it in itertools.product(range(4), repeat=3)])
        self.assertEqual([it[0] for it in found if it[6] == b"false" and it[4] != b"9"], [])

    def test_each_growth(self):
        plain, again = refused_steps.reports(refused_steps.BUILT)
        ended = [it for _, it in refused_steps.refused_in_turn(refused_steps.BUILT)]
        self.assertEqual([it for it in ended if it not in (plain, again, refused_steps.NOTHING_REPORTED)], [])
        self.assertIn(again, ended)
