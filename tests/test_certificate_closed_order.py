"""The order of the closed states in a certificate that a search writes: by their values, those of the first variable
first."""

from program import Outcome, ProgramTest, checked_sas, run
from second_reading import check_sas

# Two variables of two values each, both 0 at first and 1 in the goal. Each operator sets one of them, at cost 1.
SAS = (
    "begin_version\n3\nend_version\nbegin_metric\n0\nend_metric\n2\n"
    "begin_variable\nx\n-1\n2\nx0\nx1\nend_variable\n"
    "begin_variable\ny\n-1\n2\ny0\ny1\nend_variable\n0\n"
    "begin_state\n0\n0\nend_state\nbegin_goal\n2\n0 1\n1 1\nend_goal\n2\n"
    "begin_operator\nset x\n0\n1\n0 0 0 1\n1\nend_operator\n"
    "begin_operator\nset y\n0\n1\n0 1 0 1\n1\nend_operator\n0\n"
)

# The states at a cost below 2, that of the goal. As packed words, the first variable in the lowest bit, 1 0 is 1 and
# comes before 0 1, which is 2.
BELOW_THE_GOAL = "0 0 0\n1 0 1\n1 1 0\n"


def certificate(closed):
    """Returns the certificate of a search without tables that closed these states."""
    count = closed.count("\n")
    return f"optplan-cert 2\nsas\nbound 2\ncolumns 0\nclosed {count}\n{closed}end\n"


class ClosedOrder(ProgramTest):
    SCHEDULES = [["--simulate", str(seed)] for seed in range(10)] + [[]] * 5

    def solved(self, *words):
        return run("solve-sas", "s", "--table", "1", *words, "--cert", "c", files={"s": SAS})

    def test_one_owner(self):
        # the third expansion is the last of a state below the goal
        for schedule in self.SCHEDULES:
            with self.subTest(schedule=schedule):
                outcome = self.solved("--workers", "1", "--limit", "3", *schedule)
                plans = [b"(set x)\n(set y)\n; cost = 2 (unit cost)\n", b"(set y)\n(set x)\n; cost = 2 (unit cost)\n"]
                self.assertIn(outcome.out, plans)
                self.assertEqual(outcome, Outcome(out=outcome.out, files={"c": certificate(BELOW_THE_GOAL).encode()}))
        self.assertEqual(check_sas(SAS.encode(), certificate(BELOW_THE_GOAL).encode()), "accepted 2")

    def test_several_owners(self):
        # the goal is expanded too if its owner has not read the bound before
        wanted = [certificate(BELOW_THE_GOAL).encode(), certificate(BELOW_THE_GOAL + "2 1 1\n").encode()]
        for workers in ("2", "3", "64"):
            for schedule in self.SCHEDULES:
                with self.subTest(workers=workers, schedule=schedule):
                    self.assertIn(self.solved("--workers", workers, *schedule).files["c"], wanted)

    def test_other_order(self):
        self.is_answered(checked_sas(SAS, certificate("0 0 0\n1 1 0\n1 0 1\n")), "rejected C5 state 2")
