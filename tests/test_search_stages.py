"""Searches in stages: `--tables`, what `--progress` prints of stages, and limits."""

import re

from program import Outcome, example, run, validated, wanted
from planning import PlannerTest, solved
from test_search_small_tasks import KEY_BEHIND_ITS_LOCK, LOCKS
from test_search_threads import HANOI, states_within, tower

# The first stage has tables of at most 300 abstract states, which say little about the 3^11 states of a tower of 11 discs,
# and ends at 60,000 of them.
DISCS = 11
STAGE = re.compile(rb"optplan: stage (\d+), (\d+) tables, (\d+) abstract states")
# Example tasks, and the costs of their cheapest plans and of their cheapest first steps.
COSTS = {"drive": 7, "grip": 7, "gripper": 11, "road": 2}
FIRST_STEPS = {"drive": 3, "grip": 1, "gripper": 1, "road": 1}


class Stages(PlannerTest):
    def test_examples_by_all_choices(self):
        for task, cost in COSTS.items():
            domain, problem = example(task, "domain.pddl"), example(task, "problem.pddl")
            for options in ({}, {"tables": "staged"}, {"tables": "goal"}, {"tables": "goal", "table": 10}, {"tables": "goal", "simulate": 3}):
                for workers in (1, 2, 4):
                    with self.subTest(task=task, workers=workers, **options):
                        self.is_cheapest(domain, problem, solved(domain, problem, workers=workers, **options), cost)

    def test_same_answer_without_a_certificate(self):
        """With one worker, and by a seed, one plan and one bound are found, whether a certificate is made or not. The
        bound without tables is the cost of a step: the initial state alone is expanded."""
        tasks = [(example(task, "domain.pddl"), example(task, "problem.pddl"), f"; cost = {cost} (", FIRST_STEPS[task])
                 for task, cost in COSTS.items()]
        for domain, problem, answer, step in [*tasks, (LOCKS, KEY_BEHIND_ITS_LOCK, "unsolvable", 1)]:
            for options, text in (({}, answer), ({"simulate": 3}, answer), ({"table": 1, "limit": 1}, f"limit {step}\n")):
                with self.subTest(problem=problem, **options):
                    asked = solved(domain, problem, workers=1, **options)
                    words = [word for name, value in options.items() for word in (f"--{name}", str(value))]
                    plain = run("solve", "d", "p", "--workers", "1", *words, files={"d": domain, "p": problem})
                    self.assertEqual(plain, Outcome(asked.out, asked.err, asked.status))
                    self.assertIn(text, plain.out.decode())

    def test_goal_where_a_size_or_a_seed_is_given(self):
        """A search with tables of one abstract state, which say nothing, expands more than one state of this task."""
        domain, problem = example("drive", "domain.pddl"), example("drive", "problem.pddl")
        for words in (["--table", "1"], ["--tables", "goal", "--table", "1"], ["--simulate", "2", "--table", "1"]):
            with self.subTest(words=words):
                outcome = run("solve", "d", "p", "--workers", "1", "--limit", "1", *words, files={"d": domain, "p": problem})
                self.assertEqual(outcome.status, 5)

    def test_further_stages_are_told(self):
        files = {"d": HANOI, "p": tower(DISCS)}
        told = run("solve", "d", "p", "--workers", "2", "--progress", files=files)
        self.assertEqual(told.status, 0)
        self.assertEqual(told.out.decode().splitlines()[-1], f"; cost = {2**DISCS - 1} (unit cost)")
        found = [STAGE.fullmatch(it) for it in told.err.splitlines() if b"stage" in it]
        self.assertTrue(found and all(found), told.err)
        self.assertEqual([int(it[1]) for it in found], list(range(2, len(found) + 2)))
        self.assertTrue(all(0 < int(it[2]) <= int(it[3]) for it in found))

    def test_same_tables_on_any_processors(self):
        """With one worker the states are stored in one order, so the whole certificates are equal. Tables of the second
        stage are made by as many threads as there are processors."""
        files = {"d": HANOI, "p": tower(DISCS)}
        words = ("solve", "d", "p", "--workers", "1", "--progress", "--plan", "l", "--cert", "c")
        found = [run(*words, files=files, processors=count) for count in (1, 2, 4)]
        self.assertEqual(validated(files["d"], files["p"], found[0].files["l"]), wanted(f"valid {2**DISCS - 1}"))
        self.certifies(files["d"], files["p"], found[0].files["c"], 2**DISCS - 1)
        for outcome in found:
            self.assertEqual(outcome.status, 0)
            self.assertEqual(outcome.out.decode().splitlines()[-1], f"; cost = {2**DISCS - 1} (unit cost)")
            self.assertIn(b"optplan: stage 2, ", outcome.err)
            self.assertIn(b"\ntable ", outcome.files["c"])
            self.assertEqual(outcome.files, found[0].files)

    def test_one_search_tells_of_no_stage(self):
        told = run("solve", "d", "p", "--tables", "goal", "--progress", files={"d": HANOI, "p": tower(DISCS)})
        self.assertEqual((told.status, b"stage" in told.err), (0, False))

    def test_limit_in_a_later_stage(self):
        """The first stage ends before its worker has expanded this many states, and a later one reaches the limit. No state
        that is expanded costs more than the bound, and none twice: tables make f-values that never decrease."""
        domain, problem = HANOI, tower(DISCS + 2)
        outcome = solved(domain, problem, workers=1, limit=150_000)
        self.assertEqual(outcome.status, 5)
        bound = int(outcome.out.split()[1])
        self.assertIn(bound, range(2 ** (DISCS + 2)))
        self.assertGreaterEqual(states_within(bound), 150_000)
        self.certifies(domain, problem, outcome.files["c"], bound)
