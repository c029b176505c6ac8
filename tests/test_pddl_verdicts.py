"""Verdicts on plans."""

from program import ProgramTest, validated
from texts import (DOOR_DOMAIN, DRIVE_DOMAIN, DRIVE_PROBLEM, DRIVE_PROBLEM_WITHOUT_A_LENGTH, GRIP_DOMAIN, GRIP_PROBLEM, NOOP_PROBLEM,
                   ROAD_DOMAIN, ROAD_PROBLEM, ROAD_PROBLEM_AT_ITS_GOAL, noop_domain)

ROAD_PLANS = [
    (ROAD_PROBLEM, "(GO A B)(go b c) ; done", "valid 2"),
    (ROAD_PROBLEM, "", "goal open (at c)"),
    (ROAD_PROBLEM, "(go a b)", "goal open (at c)"),
    (ROAD_PROBLEM, "(go a b)(go a b)", "not applicable 2 (at a)"),
    (ROAD_PROBLEM, "(go a c)", "not applicable 1 (road a c)"),
    (ROAD_PROBLEM, "(go c b)", "not applicable 1 (at c)"),
    (ROAD_PROBLEM, "(go a d)", "no such action 1"),
    (ROAD_PROBLEM, "(go a)", "no such action 1"),
    (ROAD_PROBLEM, "(go a b c)", "no such action 1"),
    (ROAD_PROBLEM, "(go a b)(fly b c)", "no such action 2"),
    # The first step at fault is reported.
    (ROAD_PROBLEM, "(go a b)(go a b)(fly b c)", "not applicable 2 (at a)"),
    (ROAD_PROBLEM, "(fly b c)(go b c)", "no such action 1"),
    (ROAD_PROBLEM_AT_ITS_GOAL, "", "valid 0"),
    # An atom that a step both deletes and adds holds.
    ("(define (problem r6) (:objects a - loc) (:init (at a) (road a a)) (:goal (at a)))", "(go a a)", "valid 1"),
]

DRIVE_PLANS = [
    (DRIVE_PROBLEM, "(go a b)(go b c)", "valid 7"),
    (DRIVE_PROBLEM, "(go a c)", "valid 8"),
    # A cost without a value is a fault of the step only with the metric.
    (DRIVE_PROBLEM_WITHOUT_A_LENGTH, "(go a b)(go b c)", "no such action 2"),
    ("(define (problem d1) (:objects a b - loc) (:init (at a) (road a b)) (:goal (at b)))", "(go a b)", "valid 1"),
]

DOOR_PLANS = [
    ("(define (problem p) (:objects d) (:init) (:goal (in)))\n", "(enter d)", "valid 1"),
    ("(define (problem p) (:objects d) (:init (locked d)) (:goal (in)))\n", "(enter d)", "not applicable 1 (not (locked d))"),
    ("(define (problem p) (:objects d) (:init) (:goal (not (in))))", "(enter d)", "goal open (not (in))"),
    ("(define (problem p) (:objects d) (:init) (:goal (not (in))))", "", "valid 0"),
    # The first goal in the text that does not hold.
    ("(define (problem p) (:objects d) (:init) (:goal (and (not (in)) (locked d))))", "(enter d)", "goal open (not (in))"),
    ("(define (problem p) (:objects d) (:init) (:goal (and (locked d) (not (in)))))", "(enter d)", "goal open (locked d)"),
]

GRIP_PLANS = [
    (GRIP_PROBLEM, "(move p p)", "no such action 1"),
    (GRIP_PROBLEM, "(move p q)(pick x p)", "not applicable 2 (here p)"),
    (GRIP_PROBLEM, "(pick x p)(pick y p)", "not applicable 2 (free)"),
    (GRIP_PROBLEM, "(pick p p)", "not applicable 1 (ball p)"),
    (GRIP_PROBLEM, "(pick x p)(move p q)(drop x q)", "goal open (in y q)"),
    (GRIP_PROBLEM, "(pick x p)(move p q)(drop x q)(move q p)(pick y p)(move p q)(drop y q)", "valid 7"),
]

NOOP_ROWS = [
    ("(INCREASE (TOTAL-COST) 5.0)", "(NOOP ) ; only step", "valid 5"),
    ("(INCREASE (TOTAL-COST) 5.5)", "(NOOP ) ; only step", "F16 NotWhole domain 132"),
    ("(INCREASE (TOTAL-COST) 2147483647)", "(noop)", "valid 2147483647"),
    ("(INCREASE (TOTAL-COST) 2147483647)", "(noop)(noop)", "valid 4294967294"),
    ("(INCREASE (TOTAL-COST) 2147483648)", "(noop)", "F17 CostRange domain 132"),
    ("(INCREASE (TOTAL-COST) 2) (INCREASE (TOTAL-COST) 3)", "(noop)", "valid 5"),
    ("(INCREASE (TOTAL-COST) 2147483647) (INCREASE (TOTAL-COST) 1)", "(noop)", "F17 CostRange domain 72"),
    ("", "(noop)", "valid 0"),
]

VEHICLE_DOMAIN = (
    "(define (domain vehicles)\n"
    " (:types car lorry - vehicle vehicle place)\n"
    " (:constants depot - place)\n"
    " (:predicates (gone ?v - vehicle) (near ?x ?y) (closed))\n"
    " (:action go :parameters (?v - vehicle)\n"
    "  :precondition (and (not (closed)) (near ?v depot) (not (gone ?v)))\n"
    "  :effect (gone ?v))\n"
    " (:action meet :parameters (?x ?y)\n"
    "  :precondition (= ?x ?y)\n"
    "  :effect (and (near ?x ?y) (not (closed)))))\n"
)

VEHICLE_PROBLEM = (
    "(define (problem vehicles)\n"
    " (:objects c - car v - vehicle p - place o)\n"
    " (:init (near c depot) (near p depot))\n"
    " (:goal (gone c)))\n"
)

VEHICLE_PLANS = [
    # A parameter takes objects of its type and of subtypes; `object` takes all.
    (VEHICLE_PROBLEM, "(go c)", "valid 1"),
    (VEHICLE_PROBLEM, "(go v)", "not applicable 1 (near v depot)"),
    (VEHICLE_PROBLEM, "(go p)", "no such action 1"),
    (VEHICLE_PROBLEM, "(go o)", "no such action 1"),
    (VEHICLE_PROBLEM, "(go depot)", "no such action 1"),
    (VEHICLE_PROBLEM, "(meet depot depot)(meet c c)(go c)", "valid 3"),
    # An equality determines which ground actions exist, and is no condition on the state.
    (VEHICLE_PROBLEM, "(meet c v)", "no such action 1"),
    # The first literal in the text that does not hold.
    (VEHICLE_PROBLEM, "(go c)(go c)", "not applicable 2 (not (gone c))"),
    ("(define (problem x) (:objects c - car) (:init (closed) (gone c)) (:goal ()))", "(go c)", "not applicable 1 (not (closed))"),
    ("(define (problem x) (:objects c - car) (:init (gone c)) (:goal ()))", "(go c)", "not applicable 1 (near c depot)"),
    # An object of the problem may be a constant of the domain too.
    ("(define (problem x) (:objects depot - place c - car) (:init (near c depot)) (:goal (gone c)))", "(go c)", "valid 1"),
]


class Verdicts(ProgramTest):
    def test_plans_on_the_road(self):
        self.plans_are_answered(ROAD_DOMAIN, ROAD_PLANS)

    def test_roads_with_lengths(self):
        self.plans_are_answered(DRIVE_DOMAIN, DRIVE_PLANS)

    def test_what_must_not_hold(self):
        self.plans_are_answered(DOOR_DOMAIN, DOOR_PLANS)

    def test_balls_in_rooms(self):
        self.plans_are_answered(GRIP_DOMAIN, GRIP_PLANS)

    def test_types_and_equality(self):
        self.plans_are_answered(VEHICLE_DOMAIN, VEHICLE_PLANS)

    def test_costs_of_steps(self):
        for increases, plan, answer in NOOP_ROWS:
            self.is_answered(validated(noop_domain(increases), NOOP_PROBLEM, plan), answer, increases=increases)

    def test_each_step_costs_one_without_the_metric(self):
        domain = noop_domain("(INCREASE (TOTAL-COST) 5.0)")
        problem = "(define (problem n1) (:domain other) (:init) (:goal (P))) ; end"
        self.is_answered(validated(domain, problem, "(noop)"), "valid 1")
        self.is_answered(validated(domain, problem, "(noop)(noop)"), "valid 2")
