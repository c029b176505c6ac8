"""Multi-threaded searches: the worked tasks with few and many workers, links that are always full, a search of many
states, and searches that a limit or their time ends.
"""

from program import Outcome, checked_sas, run, validated, wanted
from second_reading import check_sas
from planning import PlannerTest, solved
from test_search_hanoi import DOMAIN as HANOI
from texts import (DOOR_DOMAIN, DRIVE_DOMAIN, DRIVE_PROBLEM, GRIP_DOMAIN, GRIP_PROBLEM, GRIP_SAS, HALF_A_ROAD, LOCKED_DOOR,
                   OPEN_DOOR, ROAD_DOMAIN, ROAD_PROBLEM, ROAD_PROBLEM_AT_ITS_GOAL, ROAD_SAS, ROAD_TO_BE_MADE,
                   ROAD_TO_NOWHERE)

WORKERS = (1, 2, 4, 64)

# Tasks with the costs of their cheapest plans: two roads; a detour that is cheaper; and, with one hand, two moves there
# and one back, and each ball picked up and dropped.
TASKS = ((ROAD_DOMAIN, ROAD_PROBLEM, 2), (DRIVE_DOMAIN, DRIVE_PROBLEM, 7), (GRIP_DOMAIN, GRIP_PROBLEM, 7))

# Tasks with at most one cheapest plan: what is printed for them, and what the certificate is accepted for.
SMALL_TASKS = (
    (ROAD_DOMAIN, ROAD_PROBLEM, b"(go a b)\n(go b c)\n; cost = 2 (unit cost)\n", 2),
    (DRIVE_DOMAIN, DRIVE_PROBLEM, b"(go a b)\n(go b c)\n; cost = 7 (general cost)\n", 7),
    (ROAD_DOMAIN, ROAD_PROBLEM_AT_ITS_GOAL, b"; cost = 0 (unit cost)\n", 0),
    (ROAD_DOMAIN, HALF_A_ROAD, b"unsolvable\n", "unsolvable"),
    (ROAD_DOMAIN, ROAD_TO_BE_MADE, b"unsolvable\n", "unsolvable"),
    (DOOR_DOMAIN, OPEN_DOOR, b"(enter d)\n; cost = 1 (unit cost)\n", 1),
    (DOOR_DOMAIN, LOCKED_DOOR, b"unsolvable\n", "unsolvable"),
)

SEARCHES = 50


# Two drivers move four packages with two trucks. A search with one worker expands about a thousand states.
DELIVERY_DOMAIN = """(define (domain delivery) (:requirements :typing)
 (:types place thing - object driver truck package - thing)
 (:predicates (at ?t - thing ?p - place) (in ?o - package ?t - truck) (drives ?d - driver ?t - truck) (free ?t - truck)
  (road ?a ?b - place) (path ?a ?b - place))
 (:action load :parameters (?o - package ?t - truck ?p - place) :precondition (and (at ?t ?p) (at ?o ?p))
  :effect (and (not (at ?o ?p)) (in ?o ?t)))
 (:action unload :parameters (?o - package ?t - truck ?p - place) :precondition (and (at ?t ?p) (in ?o ?t))
  :effect (and (not (in ?o ?t)) (at ?o ?p)))
 (:action board :parameters (?d - driver ?t - truck ?p - place) :precondition (and (at ?t ?p) (at ?d ?p) (free ?t))
  :effect (and (not (at ?d ?p)) (not (free ?t)) (drives ?d ?t)))
 (:action leave :parameters (?d - driver ?t - truck ?p - place) :precondition (and (at ?t ?p) (drives ?d ?t))
  :effect (and (not (drives ?d ?t)) (at ?d ?p) (free ?t)))
 (:action drive :parameters (?d - driver ?t - truck ?a ?b - place) :precondition (and (at ?t ?a) (drives ?d ?t) (road ?a ?b))
  :effect (and (not (at ?t ?a)) (at ?t ?b)))
 (:action walk :parameters (?d - driver ?a ?b - place) :precondition (and (at ?d ?a) (path ?a ?b))
  :effect (and (not (at ?d ?a)) (at ?d ?b))))
"""

DELIVERY_PROBLEM = """(define (problem delivery) (:domain delivery)
 (:objects s0 s1 s2 s3 s4 s5 - place d0 d1 - driver t0 t1 - truck o0 o1 o2 o3 - package)
 (:init (road s0 s1) (road s1 s0) (road s0 s2) (road s2 s0) (road s0 s3) (road s3 s0) (road s1 s4) (road s4 s1)
  (road s1 s5) (road s5 s1) (road s2 s4) (road s4 s2) (road s2 s5) (road s5 s2)
  (path s0 s1) (path s1 s0) (path s0 s2) (path s2 s0) (path s1 s3) (path s3 s1) (path s3 s4) (path s4 s3)
  (path s4 s5) (path s5 s4)
  (at d0 s2) (at d1 s4) (at t0 s3) (at t1 s4) (at o0 s2) (at o1 s0) (at o2 s0) (at o3 s2) (free t0) (free t1))
 (:goal (and (at d0 s3) (at t0 s2) (at o0 s3) (at o1 s3) (at o2 s4) (at o3 s1))))
"""

# A robot fetches a key in another room, and may go from each of these rooms to each other one: a state has as many
# successors as there are rooms. The cheapest plans go there and take the key.
ROOMS = 200

ROOMS_DOMAIN = """(define (domain rooms) (:requirements :typing) (:types room key)
 (:predicates (in ?r - room) (lies ?k - key ?r - room) (has ?k - key))
 (:action go :parameters (?a ?b - room) :precondition (in ?a) :effect (and (not (in ?a)) (in ?b)))
 (:action take :parameters (?k - key ?r - room) :precondition (and (in ?r) (lies ?k ?r))
  :effect (and (not (lies ?k ?r)) (has ?k))))
"""

ROOMS_PROBLEM = f"""(define (problem fetch) (:domain rooms)
 (:objects {" ".join(f"r{number}" for number in range(ROOMS))} - room k - key)
 (:init (in r0) (lies k r1))
 (:goal (has k)))
"""


def tower(discs):
    """Returns the problem of moving a tower of this many discs from peg a to peg c. Disc 0 is the smallest."""
    names = [f"d{number}" for number in range(discs)]
    places = [(name, below) for number, name in enumerate(names) for below in [*"abc", *names[number + 1:]]]
    fits = " ".join(f"(fits {name} {below})" for name, below in places)
    pile = " ".join(f"(on {name} {below})" for name, below in zip(names, names[1:]))
    return f"""(define (problem tower) (:domain hanoi)
 (:objects {" ".join(names)} - disc a b c - peg)
 (:init {fits} {pile} (on {names[-1]} a) (clear {names[0]}) (clear b) (clear c))
 (:goal (and {pile} (on {names[-1]} c))))
"""


def states_within(moves):
    """Returns how many states are at most this many moves away from a tower on one peg: 2 to the number of ones of d in
    binary are d moves away, for d below 2 to the number of discs (Hinz 1992)."""
    return sum(2 ** bin(distance).count("1") for distance in range(moves + 1))


class Threads(PlannerTest):
    """Multi-threaded searches."""

    def test_worked_tasks(self):
        for domain, problem, cost in TASKS:
            self.costs_by([{"workers": workers} for workers in WORKERS], domain, problem, cost)

    def is_solved(self, domain, problem, text, bound, **options):
        """Fails, and shows the options, unless exactly this is printed, written as the plan if it is one, and
        certified."""
        with self.subTest(problem=problem, **options):
            outcome = solved(domain, problem, **options)
            cert = outcome.files.get("c", b"")
            plan, status = (b"", 4) if bound == "unsolvable" else (text, 0)
            self.assertEqual(outcome, Outcome(out=text, status=status, files={"c": cert, "l": plan}))
            self.certifies(domain, problem, cert, bound)

    def test_small_tasks(self):
        for task in SMALL_TASKS:
            for workers in WORKERS:
                self.is_solved(*task, workers=workers)

    def test_small_tasks_with_a_limit_that_is_not_reached(self):
        # Each task has at most six states, and the cost of a state improves at most once.
        for task in SMALL_TASKS:
            for workers in WORKERS:
                self.is_solved(*task, workers=workers, limit=1000)

    def test_no_plan(self):
        for workers in WORKERS:
            with self.subTest(workers=workers):
                outcome = solved(ROAD_DOMAIN, ROAD_TO_NOWHERE, workers=workers)
                self.assertEqual((outcome.out, outcome.err, outcome.status), (b"unsolvable\n", b"", 4))
                self.certifies(ROAD_DOMAIN, ROAD_TO_NOWHERE, outcome.files["c"], "unsolvable")

    def test_defaults(self):
        outcome = solved(GRIP_DOMAIN, GRIP_PROBLEM)
        self.is_cheapest(GRIP_DOMAIN, GRIP_PROBLEM, outcome, 7)

    def test_full_links_of_many_workers(self):
        outcome = solved(GRIP_DOMAIN, GRIP_PROBLEM, workers=64, ring=1)
        self.is_cheapest(GRIP_DOMAIN, GRIP_PROBLEM, outcome, 7)

    def test_messages_are_not_late(self):
        # Each of two owners expands at most 1,250 states: if messages waited in outboxes while their senders go on, these
        # would expand states of ever greater f, of which there are millions.
        outcome = solved(DELIVERY_DOMAIN, DELIVERY_PROBLEM, workers=2, ring=1, limit=1250)
        self.is_cheapest(DELIVERY_DOMAIN, DELIVERY_PROBLEM, outcome, 21)

    def test_many_successors(self):
        outcome = solved(ROOMS_DOMAIN, ROOMS_PROBLEM, workers=64, ring=1, table=1)
        self.is_cheapest(ROOMS_DOMAIN, ROOMS_PROBLEM, outcome, 2)

    def test_many_states(self):
        # Nine discs have 3^9 = 19,683 states, and without tables nearly all of them cost less than the 2^9 - 1 moves to
        # the goal.
        problem = tower(9)
        searches = [{"workers": 4, "ring": 1} for _ in range(SEARCHES)]
        self.costs_by(searches, HANOI, problem, 511, table=1)

    def bound_of(self, problem, outcome):
        """Returns the bound of an outcome. Fails unless it is a bound, without a plan, and the checker accepts the
        certificate for it."""
        self.assertEqual((outcome.err, outcome.status, sorted(outcome.files)), (b"", 5, ["c", "l"]))
        bound = outcome.out.decode().removeprefix("limit ").strip()
        self.certifies(HANOI, problem, outcome.files["c"], bound)
        return int(bound)

    def test_more_states_than_the_limit(self):
        # Each of four owners has about 5,000 of the states. At most 400 states are expanded, among them all that cost
        # less than the bound, and the initial one in any case.
        problem = tower(9)
        bound = self.bound_of(problem, solved(HANOI, problem, workers=4, table=1, limit=100))
        self.assertLess(0, bound)
        self.assertLessEqual(states_within(bound - 1), 400)

    def test_one_worker_expands_near_states_first(self):
        # 1 state is 0 moves away and 2 are 1 move away, 99 are at most 19 and 103 at most 20, 999 at most 87 and 1,007
        # at most 88.
        problem = tower(9)
        for limit, bound in ((0, 0), (1, 1), (100, 20), (1000, 88)):
            for options in ({}, {"simulate": 1}, {"ties": "shallow"}):
                with self.subTest(limit=limit, **options):
                    self.assertTrue(states_within(bound - 1) <= limit < states_within(bound))
                    outcome = solved(HANOI, problem, workers=1, table=1, limit=limit, **options)
                    self.assertEqual(self.bound_of(problem, outcome), bound)

    def test_no_time(self):
        problem = tower(9)
        self.assertIn(self.bound_of(problem, solved(HANOI, problem, workers=2, table=1, time=0)), range(512))

    def test_time_enough(self):
        outcome = solved(GRIP_DOMAIN, GRIP_PROBLEM, time=600)
        self.is_cheapest(GRIP_DOMAIN, GRIP_PROBLEM, outcome, 7)

    def test_finite_domain_task(self):
        # The planning task has the same actions, at the same costs.
        for workers in WORKERS:
            with self.subTest(workers=workers):
                outcome = run("solve-sas", "s", "--workers", str(workers), "--cert", "c", files={"s": GRIP_SAS})
                self.assertEqual((outcome.out.splitlines()[-1], outcome.status), (b"; cost = 7 (unit cost)", 0))
                self.assertEqual(validated(GRIP_DOMAIN, GRIP_PROBLEM, outcome.out), wanted("valid 7"))
                self.assertEqual(check_sas(GRIP_SAS.encode(), outcome.files["c"]), "accepted 7")
                self.assertEqual(checked_sas(GRIP_SAS, outcome.files["c"]), wanted("accepted 7"))

    def test_costs_without_the_metric(self):
        # Each operator costs 1, whatever its line says.
        sas = ROAD_SAS.replace("1\nend_operator", "5\nend_operator")
        plan = b"(go a b)\n(go b c)\n; cost = 2 (unit cost)\n"
        for workers in WORKERS:
            words = ("solve-sas", "s", "--workers", str(workers), "--plan", "l", "--cert", "c")
            with self.subTest(workers=workers):
                outcome = run(*words, files={"s": sas})
                cert = outcome.files.get("c", b"")
                self.assertEqual(outcome, Outcome(out=plan, files={"c": cert, "l": plan}))
                self.assertEqual(check_sas(sas.encode(), cert), "accepted 2")
