"""The order of expansion among states of the same f-value."""

from program import Outcome, ProgramTest, run


def operator(name, old, new, cost):
    """Returns an operator of a finite-domain task of one variable."""
    return f"begin_operator\n{name}\n0\n1\n0 0 {old} {new}\n{cost}\nend_operator\n"


def task(metric, values, goal, operators):
    """Returns a finite-domain task of one variable with these many values, which is 0 initially."""
    return (
        f"begin_version\n3\nend_version\nbegin_metric\n{metric}\nend_metric\n1\nbegin_variable\nvar0\n-1\n{values}\n"
        + "".join(f"Atom at({place})\n" for place in range(values))
        + f"end_variable\n0\nbegin_state\n0\nend_state\nbegin_goal\n1\n0 {goal}\nend_goal\n{len(operators)}\n"
        + "".join(operators) + "0\n"
    )


# Operators from 0 to 1, 2, 3, 4 and 5, and from 5 to 6, the goal: each costs 1.
FIVE_WAYS = task(0, 7, 6, [*(operator(f"to {place}", 0, place, 1) for place in range(1, 6)), operator("out", 5, 6, 1)])
# From 0 a way of four operators to 5 (by 2, 3 and 4) and one of three operators (by 1 and 7), which cost nothing; the goal,
# 8, is reached from 6, a neighbor of 1, at cost 1.
TWO_WAYS = task(1, 9, 8, [
    operator("to 1", 0, 1, 0), operator("to 2", 0, 2, 0), operator("to 3", 2, 3, 0), operator("to 4", 3, 4, 0),
    operator("to 5", 4, 5, 0), operator("to 6", 1, 6, 0), operator("to 7", 1, 7, 0), operator("back to 5", 7, 5, 0),
    operator("out", 6, 8, 1),
])


class Ties(ProgramTest):
    """Searches of one worker that may expand few states, without tables, so that an f-value is a cost."""

    SIMULATED = [["--simulate", "1"], ["--simulate", "2"]]
    SCHEDULES = [*SIMULATED, []]

    def limited(self, text, limit, *words):
        """Returns the outcome of one worker that may expand `limit` states of a task, all of which is searched."""
        whole = ("--table", "1", "--reduce", "off")
        return run("solve-sas", "s", "--workers", "1", *whole, "--limit", str(limit), *words, files={"s": text})

    def test_shallow(self):
        # The states 1 to 5 are reached at cost 1, and the first of them, 1, has no successor.
        for words in self.SIMULATED + [[*words, "--ties", "shallow"] for words in self.SCHEDULES]:
            with self.subTest(words=words):
                self.assertEqual(self.limited(FIVE_WAYS, 2, *words), Outcome(out=b"limit 1\n", status=5))

    def test_deep_and_fresh(self):
        # The goal is a successor of the last of them, 5. No state is expanded twice.
        for words in [[], *([*words, "--ties", order] for words in self.SCHEDULES for order in ("deep", "fresh"))]:
            with self.subTest(words=words):
                plan = b"(to 5)\n(out)\n; cost = 2 (unit cost)\n"
                self.assertEqual(self.limited(FIVE_WAYS, 2, *words), Outcome(out=b"limit 1\n" + plan, status=5))

    def test_expanded_again(self):
        # Both orders expand 0, 2, 3, 4, 5, 1 and 7. Then 5 is reached again, over fewer operators: deep expands it again,
        # since it is reached over three operators and 6 over two; fresh first expands 6, from which the goal is reached.
        # Nine expansions are all there are, and each state of cost 0 is expanded then.
        plan = b"(to 1)\n(to 6)\n(out)\n; cost = 1 (general cost)\n"
        none, known, settled = Outcome(out=b"limit 0\n", status=5), Outcome(out=b"limit 0\n" + plan, status=5), Outcome(out=plan)
        rows = [
            ("deep", 8, none), ("deep", 9, settled),
            ("fresh", 7, none), ("fresh", 8, known), ("fresh", 9, settled),
            ("shallow", 3, none), ("shallow", 4, known),
        ]
        # Simulations are shallow by default, and threads fresh.
        for words in self.SCHEDULES:
            default = "shallow" if words else "fresh"
            for order, limit, wanted in rows:
                for ties in [["--ties", order]] + ([[]] if order == default else []):
                    with self.subTest(words=words, order=order, ties=ties, limit=limit):
                        self.assertEqual(self.limited(TWO_WAYS, limit, *words, *ties), wanted)
