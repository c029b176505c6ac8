"""`--progress`: lines on standard error that report how far a search is, and that nothing else differs."""

import re

from program import Outcome, ProgramTest, example, run
from test_search_threads import HANOI, states_within, tower

# The number of steps of a simulation between two lines.
STEPS = 100_000

LINE = re.compile(
    rb"optplan: (\d+) (s|steps), (\d+) expanded, (\d+) kept, least open f (\d+|inf), best cost (\d+|inf)")

# All 3^n states of a tower of n discs are reachable, and without tables a search expands nearly all of them.
DISCS = 10


def searched(*words, discs=DISCS):
    return run("solve", "d", "p", "--table", "1", "--cert", "cert", *words, files={"d": HANOI, "p": tower(discs)})


class ProgressTest(ProgramTest):
    def lines_of(self, outcome, unit):
        """Returns the numbers of each line of standard error, all of which are reports in this unit."""
        found = [LINE.fullmatch(it) for it in outcome.err.splitlines()]
        self.assertTrue(all(found), outcome.err)
        self.assertTrue(all(it[2] == unit for it in found), outcome.err)
        return [[int(it[1]), int(it[3]), int(it[4]), it[5], it[6]] for it in found]

    def is_as_without(self, told, plain):
        self.assertEqual((told.status, told.out, told.files["cert"]), (plain.status, plain.out, plain.files["cert"]))
        self.assertEqual(plain.err, b"")

    def test_steps_are_told_in_hundred_thousands(self):
        words = ("--workers", "2", "--simulate", "5")
        told = searched("--progress", *words)
        self.is_as_without(told, searched(*words))
        lines = self.lines_of(told, b"steps")
        self.assertGreater(len(lines), 1)
        self.assertEqual([it[0] for it in lines], [STEPS * (at + 1) for at in range(len(lines))])
        for steps, expanded, kept, least_open, best in lines:
            self.assertTrue(0 < expanded < steps and 0 < kept <= 3**DISCS)
            self.assertEqual(best, b"inf")
        # From line to line more nodes are expanded, and no stored state is removed.
        self.assertEqual([it[1] for it in lines], sorted({it[1] for it in lines}))
        self.assertEqual([it[2] for it in lines], sorted(it[2] for it in lines))
        # The steps are used up, and the last line counts the expansions. All states that cost less than the bound are expanded.
        bound = int(told.out.removeprefix(b"limit "))
        self.assertEqual((told.status, lines[-1][0]), (5, 1_000_000))
        self.assertIn(bound, range(1, 2**DISCS))
        self.assertLessEqual(states_within(bound - 1), lines[-1][1])

    def test_steps_that_are_used_up(self):
        for steps, count in (("99999", 0), ("100000", 1), ("199999", 1), ("200000", 2)):
            with self.subTest(steps=steps):
                told = searched("--progress", "--workers", "1", "--simulate", "1", "--steps", steps, discs=12)
                self.assertEqual((told.status, len(self.lines_of(told, b"steps"))), (5, count))

    def test_the_least_f_value_of_one_owner_never_falls(self):
        # Without tables the f-value of a state is the cost of the path to it.
        told = searched("--progress", "--workers", "1", "--simulate", "1", discs=11)
        lines = self.lines_of(told, b"steps")
        self.assertTrue(lines)
        costs = [int(it[3]) for it in lines]
        self.assertEqual(costs, sorted(costs))

    def test_seconds_are_told_once_each(self):
        told = searched("--progress", "--workers", "2", "--time", "4", "--reduce", "off", discs=14)
        lines = self.lines_of(told, b"s")
        seconds = [it[0] for it in lines]
        self.assertEqual(told.status, 5)
        self.assertTrue(2 <= len(lines) <= 5, told.err)
        self.assertEqual(seconds, sorted(set(seconds)))
        self.assertTrue(1 <= seconds[0] and seconds[-1] <= 5, told.err)
        # No state of a tower of n discs is more than 2^n - 1 moves from another; the least open f is infinite while all
        # open work is in messages.
        for _, expanded, kept, least_open, best in lines:
            self.assertTrue(0 < expanded and 0 < kept <= 3**14 and (least_open == b"inf" or int(least_open) < 2**14))
            self.assertEqual(best, b"inf")

    def test_nothing_is_told_of_short_searches(self):
        files = {"d": example("road", "domain.pddl"), "p": example("road", "problem.pddl")}
        for words in ((), ("--simulate", "1"), ("--progress",), ("--progress", "--simulate", "1")):
            with self.subTest(words=words):
                self.assertEqual(run("solve", "d", "p", *words, files=files), Outcome(out=b"(go a b)\n(go b c)\n; cost = 2 (unit cost)\n"))
