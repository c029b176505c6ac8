"""Searches that `--limit`, `--steps` or `--memory` stops: the bound, the best plan so far, and the certificate of the
bound."""

from program import Outcome, ProgramTest, checked, checked_sas, example, run
from second_reading import check_sas
from test_search_threads import HANOI, states_within, tower

# Examples that are solved after few states, with the costs of their cheapest plans: three blocks picked up and stacked;
# a step; the way over b; two balls carried by one hand; four balls picked up and dropped by two hands, with two moves
# there and one back; a lamp and a road; a step at cost 5; two roads.
SMALL_TASKS = {"blocks": 6, "door": 1, "drive": 7, "grip": 7, "gripper": 11, "lamp": 2, "noop": 5, "road": 2}

STOPPED = 5

ROAD, ROAD_PROBLEM = example("road", "domain.pddl"), example("road", "problem.pddl")
DRIVE, DRIVE_PROBLEM = example("drive", "domain.pddl"), example("drive", "problem.pddl")

# The road with the start as the goal.
ROAD_PROBLEM_AT_A = ROAD_PROBLEM.replace("(:goal (at c))", "(:goal (at a))")

# The tables have one abstract state and the value 0, so f is the cost so far. The states are a, b and c: the first
# expansion reaches b at 3 and the goal c at 8.
DRIVE_WITHOUT_TABLES = ("--table", "1", "--workers", "1")

DRIVE_CERTIFICATE = """optplan-cert 2
pddl
bound 3
atoms 6
at a
at b
at c
road a b
road a c
road b c
vars 1
0 3 0 1 2
columns 0
closed 1
0 0
end
"""


def solved(domain, problem, *words, seed=1):
    """Returns the outcome of solving a task with these options, by the random steps of a seed, or with threads if that
    is None. The plan goes to the file `plan`, the certificate to the file `cert`."""
    schedule = () if seed is None else ("--simulate", str(seed))
    return run("solve", "d", "p", *schedule, "--plan", "plan", "--cert", "cert", *words, files={"d": domain, "p": problem})


def bound_of(outcome):
    """Returns what the certificate of this answer must prove: the bound, the cost of a cheapest plan, or that there is
    no plan."""
    if outcome.out == b"unsolvable\n":
        return "unsolvable"
    if outcome.status == STOPPED:
        return outcome.out.splitlines()[0].removeprefix(b"limit ").decode()
    return outcome.out.splitlines()[-1].removeprefix(b"; cost = ").split()[0].decode()


class StoppedTest(ProgramTest):
    def is_solved(self, outcome, out, status, plan=b"", **row):
        """Fails, and shows the row, unless this was printed, with this status, and the plan's file has this text."""
        with self.subTest(**row):
            cert = outcome.files.get("cert")
            self.assertTrue(cert)
            self.assertEqual(outcome, Outcome(out=out, status=status, files={"cert": cert, "plan": plan}))

    def is_certified(self, domain, problem, outcome, **row):
        """Fails, and shows the row, unless the certificate is accepted for exactly what was answered."""
        self.is_answered(checked(domain, problem, outcome.files["cert"]), f"accepted {bound_of(outcome)}", **row)


class LimitTest(StoppedTest):
    def test_bound_before_a_plan_is_found(self):
        # the tables are exact, so the least open f is 2 from the first state on, and after one step of any owner too
        limits = [(("--workers", "1", "--limit", limit), seed) for limit in "01" for seed in (1, None)]
        for words, seed in [*limits, (("--steps", "1"), 1), (("--steps", "0"), 1)]:
            outcome = solved(ROAD, ROAD_PROBLEM, *words, seed=seed)
            self.is_solved(outcome, b"limit 2\n", STOPPED, words=words, seed=seed)
            self.is_answered(checked(ROAD, ROAD_PROBLEM, outcome.files["cert"]), "accepted 2", words=words, seed=seed)

    def test_what_is_settled_is_solved_all_the_same(self):
        plan = b"; cost = 0 (unit cost)\n"
        for words, seed in ((("--limit", "0"), 1), (("--limit", "0"), None), (("--steps", "0"), 1)):
            outcome = solved(ROAD, ROAD_PROBLEM_AT_A, "--workers", "1", *words, seed=seed)
            self.is_solved(outcome, plan, 0, plan, words=words, seed=seed)
            self.is_certified(ROAD, ROAD_PROBLEM_AT_A, outcome, words=words, seed=seed)

    def test_best_plan_so_far(self):
        plan = b"(go a c)\n; cost = 8 (general cost)\n"
        for seed in [*range(20), None]:
            outcome = solved(DRIVE, DRIVE_PROBLEM, *DRIVE_WITHOUT_TABLES, "--limit", "1", seed=seed)
            self.is_solved(outcome, b"limit 3\n" + plan, STOPPED, plan, seed=seed)
            self.assertEqual(outcome.files["cert"].decode(), DRIVE_CERTIFICATE)
        self.is_answered(checked(DRIVE, DRIVE_PROBLEM, DRIVE_CERTIFICATE), "accepted 3")

    def test_next_bound_is_no_bound(self):
        self.is_answered(checked(DRIVE, DRIVE_PROBLEM, DRIVE_CERTIFICATE.replace("bound 3", "bound 4")), "rejected C8 state 0 op 0")

    def test_no_state_expanded(self):
        for seed in (1, None):
            outcome = solved(DRIVE, DRIVE_PROBLEM, *DRIVE_WITHOUT_TABLES, "--limit", "0", seed=seed)
            self.is_solved(outcome, b"limit 0\n", STOPPED, seed=seed)
            self.is_certified(DRIVE, DRIVE_PROBLEM, outcome, seed=seed)

    def test_limit_that_is_never_met(self):
        # the second expansion, of b, reaches c at 7, and nothing is open below that
        plan = b"(go a b)\n(go b c)\n; cost = 7 (general cost)\n"
        for seed in (1, None):
            outcome = solved(DRIVE, DRIVE_PROBLEM, *DRIVE_WITHOUT_TABLES, "--limit", "2", seed=seed)
            self.is_solved(outcome, plan, 0, plan, seed=seed)
            self.is_certified(DRIVE, DRIVE_PROBLEM, outcome, seed=seed)

    def test_finite_domain_task(self):
        # f is 2 at each place; the second expansion reaches the goal, and then nothing is open below 2
        sas, plan = example("road", "task.sas"), b"(go a b)\n(go b c)\n; cost = 2 (unit cost)\n"
        by_seed = [("--simulate", "1", option, number) for option in ("--limit", "--steps") for number in "012"]
        for words in [*by_seed, *(("--limit", number) for number in "012")]:
            given = ("solve-sas", "s", "--workers", "1", *words, "--plan", "plan", "--cert", "cert")
            outcome = run(*given, files={"s": sas})
            answer = (plan, 0, plan) if words[-1] == "2" else (b"limit 2\n", STOPPED)
            self.is_solved(outcome, *answer, words=words)
            self.is_answered(checked_sas(sas, outcome.files["cert"]), "accepted 2", words=words)
            self.assertEqual(check_sas(sas.encode(), outcome.files["cert"]), "accepted 2")

    def test_certificates_are_accepted_for_what_is_answered(self):
        # the table of some goal has all variables of its task, which has fewer than 100,000 states: so the bound is the
        # cost from the first state on
        for name, cost in SMALL_TASKS.items():
            domain, problem = example(name, "domain.pddl"), example(name, "problem.pddl")
            for limit in range(0, 41, 4):
                for workers in range(1, 5):
                    words = ("--tables", "goal", "--limit", str(limit), "--workers", str(workers))
                    for seed in ((limit + workers) % 20, None):
                        row = {"name": name, "limit": limit, "workers": workers, "seed": seed}
                        outcome = solved(domain, problem, *words, seed=seed)
                        with self.subTest(**row):
                            self.assertEqual((bound_of(outcome), outcome.err), (str(cost), b""))
                        self.is_certified(domain, problem, outcome, **row)

    def test_bounds_of_stages(self):
        # at first some goal does not hold, and no step is free: a bound above 0 needs a table alone
        for name, cost in SMALL_TASKS.items():
            domain, problem = example(name, "domain.pddl"), example(name, "problem.pddl")
            for limit in range(0, 41, 8):
                for workers in (1, 4):
                    outcome = solved(domain, problem, "--limit", str(limit), "--workers", str(workers), seed=None)
                    bounds = range(1, cost + 1) if outcome.status == STOPPED else (cost,)
                    with self.subTest(name=name, limit=limit, workers=workers):
                        self.assertIn(int(bound_of(outcome)), bounds)
                    self.is_certified(domain, problem, outcome, name=name, limit=limit, workers=workers)

    def test_bound_never_falls_as_the_limit_rises(self):
        # with one seed, the steps of a lesser limit are a prefix of those of a greater one; the first expansion is that of
        # the initial state, after which no step is free
        for name, cost in SMALL_TASKS.items():
            domain, problem = example(name, "domain.pddl"), example(name, "problem.pddl")
            least = 0
            for limit in range(41):
                outcome = solved(domain, problem, "--table", "1", "--workers", "2", "--limit", str(limit))
                bounds = range(max(1, least), cost + 1) if limit else (0,)
                least = int(bound_of(outcome))
                with self.subTest(name=name, limit=limit):
                    self.assertIn(least, bounds if outcome.status == STOPPED else (cost,))
                if outcome.status != STOPPED:
                    break


class WatchTest(StoppedTest):
    """Multi-threaded searches that memory ends."""

    def test_no_memory(self):
        # the initial state takes memory, so the first turn is not taken
        outcome = solved(DRIVE, DRIVE_PROBLEM, *DRIVE_WITHOUT_TABLES, "--memory", "0", seed=None)
        self.is_solved(outcome, b"limit 0\n", STOPPED)
        self.is_certified(DRIVE, DRIVE_PROBLEM, outcome)

    def test_memory_enough(self):
        plan = b"(go a b)\n(go b c)\n; cost = 7 (general cost)\n"
        for words in (("--memory", "1"), ("--memory", "9223372036854775807")):
            outcome = solved(DRIVE, DRIVE_PROBLEM, *words, seed=None)
            self.is_solved(outcome, plan, 0, plan, words=words)

    def test_memory_for_some_states(self):
        # 1 MiB holds about 13,000 of the 3^10 states, at 80 bytes each, so neither few nor all are closed
        for workers in ("1", "4"):
            outcome = solved(HANOI, tower(10), "--table", "1", "--workers", workers, "--memory", "1", seed=None)
            self.assertEqual(outcome.status, STOPPED)
            line = next(line for line in outcome.files["cert"].splitlines() if line.startswith(b"closed "))
            closed, bound = int(line.split()[1]), int(bound_of(outcome))
            with self.subTest(workers=workers, closed=closed, bound=bound):
                self.assertIn(closed, range(1_001, 20_000))
                # all states that cost less than the bound are closed, and one worker closes no state that costs more
                self.assertIn(bound, range(1, 2**10))
                self.assertLessEqual(states_within(bound - 1), closed)
                self.assertTrue(workers == "4" or closed <= states_within(bound))
            self.is_certified(HANOI, tower(10), outcome, workers=workers)

    def test_memory_of_a_simulation_is_not_limited(self):
        plan = b"(go a b)\n(go b c)\n; cost = 7 (general cost)\n"
        self.is_solved(solved(DRIVE, DRIVE_PROBLEM, "--memory", "0"), plan, 0, plan)
