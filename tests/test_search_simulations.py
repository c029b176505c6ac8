"""Simulations: with many seeds, with nothing to do, with limits and with small tables."""

from program import Outcome, ProgramTest, checked, wanted
from planning import PlannerTest, solved
from texts import DRIVE_DOMAIN, DRIVE_PROBLEM, GRIP_DOMAIN, GRIP_PROBLEM, ROAD_DOMAIN, ROAD_PROBLEM

# The plan over b, which is cheaper by 1 than the direct one.
DRIVE_PLAN = b"(go a b)\n(go b c)\n; cost = 7 (general cost)\n"

# The goal holds at the beginning, and the only road goes from a to a.
ROAD_NOWHERE = """(define (problem nowhere) (:domain road)
 (:objects a - loc)
 (:init (at a) (road a a))
 (:goal (at a)))
"""

# Both atoms always hold, so there is no variable, and every plan costs at least 0.
NOWHERE_CERTIFICATE = """optplan-cert 1
pddl
bound 0
atoms 2
at a
road a a
vars 0
columns 0
closed 0
end
"""


class ManySeedsTest(ProgramTest):
    """Tests of one answer with many seeds."""

    SEEDS = range(1000)

    def drives(self, workers):
        """Fails for each seed with another plan. A certificate that equals that of the previous seed is not checked
        again."""
        previous = None
        for seed in self.SEEDS:
            with self.subTest(seed=seed):
                outcome = solved(DRIVE_DOMAIN, DRIVE_PROBLEM, simulate=seed, workers=workers)
                cert = outcome.files.get("c", b"")
                self.assertEqual(outcome, Outcome(out=DRIVE_PLAN, files={"l": DRIVE_PLAN, "c": cert}))
                if cert != previous:
                    self.assertEqual(checked(DRIVE_DOMAIN, DRIVE_PROBLEM, cert), wanted("accepted 7"))
                    previous = cert


class Seeds(ManySeedsTest):
    """One and two workers."""

    def test_a_thousand_seeds_with_one_worker(self):
        self.drives(1)

    def test_a_thousand_seeds_with_two_workers(self):
        self.drives(2)


class MoreWorkers(ManySeedsTest):
    """Three and four workers."""

    def test_a_thousand_seeds_with_three_workers(self):
        self.drives(3)

    def test_a_thousand_seeds_with_four_workers(self):
        self.drives(4)


class Machine(PlannerTest):
    """Simulations without steps, with limits and with small tables."""

    def test_nothing_to_do(self):
        outcome = solved(ROAD_DOMAIN, ROAD_NOWHERE, simulate=1)
        self.assertEqual(outcome.out, b"; cost = 0 (unit cost)\n")
        self.is_cheapest(ROAD_DOMAIN, ROAD_NOWHERE, outcome, 0)
        self.certifies(ROAD_DOMAIN, ROAD_NOWHERE, NOWHERE_CERTIFICATE, 0)

    def test_search_limits(self):
        # One step, or one expansion, finds no plan from a to c: the plan's file stays empty. Tables of the whole road have
        # its length as the initial value.
        for option in ({"steps": 1}, {"limit": 1}):
            outcome = solved(ROAD_DOMAIN, ROAD_PROBLEM, simulate=1, workers=1, **option)
            cert = outcome.files.get("c", b"")
            self.assertEqual(outcome, Outcome(out=b"limit 2\n", status=5, files={"c": cert, "l": b""}))
            self.certifies(ROAD_DOMAIN, ROAD_PROBLEM, cert, 2)

    def test_small_tables(self):
        # Each ball is picked up and dropped, and with one hand there are two moves there and one back: 7. A table of 3
        # abstract states is over one ball, so there are two tables, and a column begins with each.
        outcome = solved(GRIP_DOMAIN, GRIP_PROBLEM, simulate=1, table=3)
        self.is_cheapest(GRIP_DOMAIN, GRIP_PROBLEM, outcome, 7)
        lines = outcome.files["c"].decode().splitlines()
        self.assertEqual((lines.count("columns 2"), lines.count("column 2")), (1, 2))
