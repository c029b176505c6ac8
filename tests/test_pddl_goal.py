"""Faults of goals and metrics."""

from program import ProgramTest

PREDICATE = "(define (domain x) (:predicates (p)))"

PREDICATE_OF_ONE = "(define (domain x) (:predicates (p ?x)) (:constants a))"

GOAL_ROWS = [
    (PREDICATE, "(define (problem x) (:init (p)) (:goal (and () (and) (and (and (p))))))", "valid 0"),
    (PREDICATE, "(define (problem x) (:goal))", "F10 Shape problem 20"),
    (PREDICATE, "(define (problem x) (:goal () ()))", "F10 Shape problem 30"),
    (PREDICATE, "(define (problem x) (:goal p))", "F10 Shape problem 27"),
    (PREDICATE, "(define (problem x) (:goal (and (p) p)))", "F10 Shape problem 36"),
    (PREDICATE, "(define (problem x) (:goal (q)))", "F12 UnknownName problem 28"),
    (PREDICATE, "(define (problem x) (:goal (and (p) (not (q)))))", "F12 UnknownName problem 42"),
    (PREDICATE_OF_ONE, "(define (problem x) (:goal (p ?)))", "F10 Shape problem 30"),
    (PREDICATE_OF_ONE, "(define (problem x) (:goal (p ())))", "F10 Shape problem 30"),
    (PREDICATE_OF_ONE, "(define (problem x) (:goal (p ?x)))", "F12 UnknownName problem 30"),
    (PREDICATE_OF_ONE, "(define (problem x) (:goal (p b)))", "F12 UnknownName problem 30"),
    (PREDICATE_OF_ONE, "(define (problem x) (:goal (p a a)))", "F13 Arity problem 27"),
]

HEAD_ROWS = [
    (PREDICATE, "(define (problem x) (:goal (or (p))))", "F11 Unsupported or problem 28"),
    (PREDICATE, "(define (problem x) (:goal (and (p) (preference x (p)))))", "F11 Unsupported preference problem 37"),
    (PREDICATE, "(define (problem x) (:goal (not (and (p)))))", "F11 Unsupported not problem 28"),
    (PREDICATE_OF_ONE, "(define (problem x) (:goal (= a a)))", "F11 Unsupported = problem 28"),
    (PREDICATE_OF_ONE, "(define (problem x) (:goal (and (p a) (= a b))))", "F11 Unsupported = problem 39"),
    ("(define (domain x) (:constants a))", "(define (problem x) (:goal (not (= a a))))", "F11 Unsupported = problem 33"),
]

BOTH_WAYS_ROWS = [
    (PREDICATE, "(define (problem x) (:goal (and (p) (not (p)))))", "F19 GoalBothWays problem 36"),
    (PREDICATE, "(define (problem x) (:goal (and (not (p)) (p))))", "F19 GoalBothWays problem 42"),
    (PREDICATE, "(define (problem x) (:goal (and (p) (and (p) (not (p)) (p)))))", "F19 GoalBothWays problem 45"),
    (PREDICATE_OF_ONE, "(define (problem x) (:objects b) (:init (p a)) (:goal (and (p a) (not (p b)))))", "valid 0"),
]

DOMAIN = "(define (domain x))"

METRIC_ROWS = [
    (DOMAIN, "(define (problem x) (:goal ()) (:metric minimize (total-cost)))", "valid 0"),
    (DOMAIN, "(define (problem x) (:goal ()) (:metric MINIMIZE TOTAL-COST))", "valid 0"),
    (DOMAIN, "(define (problem x) (:goal ()) (:metric (total-cost)))", "F11 Unsupported total-cost problem 41"),
    (DOMAIN, "(define (problem x) (:goal ()) (:metric))", "F10 Shape problem 31"),
    (DOMAIN, "(define (problem x) (:goal ()) (:metric ()))", "F10 Shape problem 31"),
    (DOMAIN, "(define (problem x) (:goal ()) (:metric minimize (f)))", "F11 Unsupported minimize problem 40"),
    (DOMAIN, "(define (problem x) (:goal ()) (:metric minimize total-cost x))", "F11 Unsupported minimize problem 40"),
    (DOMAIN, "(define (problem x) (:goal ()) (:metric minimize))", "F11 Unsupported minimize problem 40"),
    (DOMAIN, "(define (problem x) (:goal ()) (:metric maximize (total-cost)))", "F11 Unsupported maximize problem 40"),
    (DOMAIN, "(define (problem x) (:goal ()) (:metric () (+ 1 (total-cost))))", "F11 Unsupported + problem 44"),
]


class Goals(ProgramTest):
    def test_goals(self):
        self.problems_are_answered(GOAL_ROWS)

    def test_heads_that_no_goal_has(self):
        self.problems_are_answered(HEAD_ROWS)

    def test_goals_both_ways(self):
        self.problems_are_answered(BOTH_WAYS_ROWS)

    def test_metrics(self):
        self.problems_are_answered(METRIC_ROWS)
