"""Examples of tasks in which much is there that no goal needs: their plans are cheapest ones, at costs that are counted
by hand.
"""

from program import Outcome, ProgramTest, example, run

# In the north two trucks drive 14 miles together, and two parcels are loaded and unloaded. Of two components each is
# mounted, switched on, heated, measured with a probe that is calibrated for it, switched off and released. Part a needs
# the lathe (4), the drill (3), polish (2) and red paint (1 and 2), part b the lathe (4) and, after the red is flushed
# (2), blue paint (1 and 2).
COSTS = {"fleet": 18, "bench": 14, "shop": 21}


class Examples(ProgramTest):
    """The examples `fleet`, `bench` and `shop`."""

    def test_plans_are_cheapest(self):
        for name, cost in COSTS.items():
            with self.subTest(name=name):
                files = {"d": example(name, "domain.pddl"), "p": example(name, "problem.pddl")}
                solved = run("solve", "d", "p", "--cert", "c", files=files)
                self.assertEqual(solved.status, 0)
                for plan in (solved.out, example(name, "plan.txt")):
                    judged = run("optimal", "d", "p", "l", "c", files=files | {"l": plan, "c": solved.files["c"]})
                    self.assertEqual(judged, Outcome(out=b"optimal %d\n" % cost))
