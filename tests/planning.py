"""Solving planning tasks with many seeds and with threads. Each answer is judged by the commands that validate plans and check
certificates, which read only the texts.
"""

from program import Outcome, ProgramTest, checked, run, validated, wanted

# The seeds of simulations.
SEEDS = range(20)

# The numbers of workers of simulations.
WORKERS = (1, 2, 5)

# The numbers of threads, the number of searches with each, and the capacities of a link, which alternate: one for a
# single message is often full.
THREADS = range(1, 9)
SEARCHES = 20
ROOMS = (1, 64)

# The greatest number of abstract states of a table: small, so that searches expand nodes.
TABLE = 100


def solved(domain, problem, **options):
    """Returns the outcome of solving a task, with threads, or with the random steps of the seed `simulate`. The plan
    goes to the file `l`, the certificate to `c`."""
    words = [word for name, value in options.items() for word in (f"--{name}", str(value))]
    return run("solve", "d", "p", *words, "--plan", "l", "--cert", "c", files={"d": domain, "p": problem})


def by_seeds(*numbers):
    """Returns the options of a search for each of these numbers of workers and each seed."""
    return [{"workers": workers, "simulate": seed} for workers in numbers for seed in SEEDS]


def by_threads(*numbers):
    """Returns the options of SEARCHES searches for each of these numbers of threads."""
    return [{"workers": workers, "ring": ROOMS[search % len(ROOMS)]} for workers in numbers for search in range(SEARCHES)]


def staged_by(*numbers):
    """Returns the options of a search in stages for each of these numbers of threads."""
    return [{"workers": workers, "tables": "staged"} for workers in numbers]


def deep_by(*numbers):
    """Returns the options of four searches with `--ties deep` for each of these numbers of workers."""
    return [{"workers": workers, "ties": "deep", **schedule} for workers in numbers for schedule in [{"simulate": seed} for seed in SEEDS[:3]] + [{}]]


def with_tables(options, size):
    """Returns the options of a search, with tables of this size if it names none."""
    return options if "tables" in options else {**options, "table": size}


class PlannerTest(ProgramTest):
    """Tests that solve tasks and check each answer."""

    def certifies(self, domain, problem, cert, bound):
        """Fails unless the checker accepts the certificate for this bound."""
        self.assertEqual(checked(domain, problem, cert), wanted(f"accepted {bound}"))

    def is_cheapest(self, domain, problem, outcome, cost):
        """Fails unless the outcome is a plan that is valid at this cost, with a certificate that the checker accepts
        for it."""
        self.assertEqual((outcome.err, outcome.status, sorted(outcome.files)), (b"", 0, ["c", "l"]), outcome)
        kind = "general" if "(:metric" in problem else "unit"
        self.assertEqual(outcome.out.decode().splitlines()[-1], f"; cost = {cost} ({kind} cost)")
        self.assertEqual(outcome.files["l"], outcome.out)
        self.assertEqual(validated(domain, problem, outcome.out), wanted(f"valid {cost}"))
        self.certifies(domain, problem, outcome.files["c"], cost)

    def costs_by(self, searches, domain, problem, cost, table=TABLE):
        """Fails for each of these searches, given by its options, that does not solve the task at this cost. Those that
        name no tables have tables of that size."""
        for options in searches:
            with self.subTest(problem=problem, **options):
                outcome = solved(domain, problem, **with_tables(options, table))
                self.is_cheapest(domain, problem, outcome, cost)

    def costs(self, domain, problem, cost, table=TABLE):
        """Fails unless simulations and threads solve the task at this cost, with tables of that size."""
        self.costs_by(by_seeds(*WORKERS), domain, problem, cost, table)
        self.costs_by(by_threads(*THREADS), domain, problem, cost, table)
        self.costs_by(deep_by(*WORKERS), domain, problem, cost, table)
        self.costs_by(staged_by(*THREADS), domain, problem, cost)

    def unsolvable(self, domain, problem):
        """Fails unless simulations and threads find that the task has no plan, with a certificate of that."""
        for options in by_seeds(*WORKERS) + by_threads(*THREADS) + deep_by(*WORKERS) + staged_by(*THREADS):
            with self.subTest(problem=problem, **options):
                outcome = solved(domain, problem, **with_tables(options, TABLE))
                cert = outcome.files.get("c", b"")
                self.assertEqual(outcome, Outcome(out=b"unsolvable\n", status=4, files={"c": cert, "l": b""}))
                self.certifies(domain, problem, cert, "unsolvable")
