"""The heads of a domain and a problem: `define`, their names and their sections."""

from program import ProgramTest
from texts import ROAD_PROBLEM

DEFINE_ROWS = [
    ("(define (domain x))", "valid 0"),
    ("(defin (domain x))", "F10 Shape domain 1"),
    ("((define) (domain x))", "F10 Shape domain 1"),
    ("()", "F10 Shape domain 0"),
    ("x", "F10 Shape domain 0"),
    ("(define)", "F10 Shape domain 0"),
]

NAME_ROWS = [
    ("(define (problem x))", "F10 Shape domain 9"),
    ("(define (:predicates (p)))", "F10 Shape domain 9"),
    ("(define ((domain) x))", "F10 Shape domain 9"),
    ("(define (domain))", "F10 Shape domain 8"),
    ("(define (foo))", "F10 Shape domain 8"),
    ("(define ())", "F10 Shape domain 8"),
    ("(define domain x)", "F10 Shape domain 8"),
    ("(define (domain x y))", "F10 Shape domain 18"),
    ("(define (domain ?x))", "F10 Shape domain 16"),
    ("(define (domain :x))", "F10 Shape domain 16"),
    ("(define (domain -))", "F10 Shape domain 16"),
    ("(define (domain (x)))", "F10 Shape domain 16"),
    ("(define (domain 5))", "valid 0"),
]

SECTION_ROWS = [
    ("(define (domain x) :types)", "F10 Shape domain 19"),
    ("(define (domain x) ())", "F10 Shape domain 19"),
    ("(define (domain x) ((:types)))", "F10 Shape domain 20"),
    ("(define (domain x) (foo))", "F11 Unsupported foo domain 20"),
    ("(define (domain x) (?x))", "F11 Unsupported ?x domain 20"),
    ("(define (domain x) (-))", "F11 Unsupported - domain 20"),
    ("(define (domain x) (:FOO))", "F11 Unsupported :foo domain 20"),
    ("(define (domain x) (:derived (p) (q)))", "F11 Unsupported :derived domain 20"),
    ("(define (domain x) (:durative-action a))", "F11 Unsupported :durative-action domain 20"),
    ("(define (domain x) (:goal ()))", "F11 Unsupported :goal domain 20"),
    ("(define (domain x) (:constraints()))", "F11 Unsupported :constraints domain 20"),
]

TWICE_ROWS = [
    ("(define (domain x) (:types) (:types))", "F14 TwiceDeclared domain 29"),
    ("(define (domain x) (:constants) (:constants))", "F14 TwiceDeclared domain 33"),
    ("(define (domain x) (:predicates) (:predicates))", "F14 TwiceDeclared domain 34"),
    ("(define (domain x) (:functions) (:functions))", "F14 TwiceDeclared domain 33"),
    ("(define (domain x) (:requirements) (:requirements))", "F14 TwiceDeclared domain 36"),
    ("(define (domain x) (:types) (:action a) (:TYPES) (:types))", "F14 TwiceDeclared domain 41"),
    ("(define (domain x) (:action a) (:action b))", "valid 0"),
]

REQUIREMENT_ROWS = [
    ("(define (domain x) (:requirements :strips :adl :time-travel))", "valid 0"),
    ("(define (domain x) (:requirements :strips strips))", "F10 Shape domain 42"),
    ("(define (domain x) (:requirements ()))", "F10 Shape domain 34"),
    ("(define (domain x) (:requirements (:strips)))", "F10 Shape domain 34"),
    ("(define (domain x) (:requirements ?x :strips))", "F10 Shape domain 34"),
    ("(define (domain x) (:requirements -))", "F10 Shape domain 34"),
]

DOMAIN = "(define (domain x))"

PROBLEM_ROWS = [
    (DOMAIN, "(defin (problem p) (:goal ()))", "F10 Shape problem 1"),
    (DOMAIN, "(define (domain p) (:goal ()))", "F10 Shape problem 9"),
    (DOMAIN, "(define (problem ?p) (:goal ()))", "F10 Shape problem 17"),
    (DOMAIN, "(define (problem p) :goal (:goal ()))", "F10 Shape problem 20"),
    (DOMAIN, "(define (problem p) (:constraints ()) (:goal ()))", "F11 Unsupported :constraints problem 21"),
    (DOMAIN, "(define (problem p) (:goal ()) (:action a))", "F11 Unsupported :action problem 32"),
    (DOMAIN, "(define (problem p) (init) (:goal ()))", "F11 Unsupported init problem 21"),
    (DOMAIN, "(define (problem p) () (:goal ()))", "F10 Shape problem 20"),
]

NO_GOAL_ROWS = [
    (DOMAIN, "(define (problem p))", "F10 Shape problem 0"),
    (DOMAIN, "(define (problem p) (:foo))", "F10 Shape problem 0"),
    (DOMAIN, "(define (problem p) (:objects a - no))", "F10 Shape problem 0"),
    (DOMAIN, "(defin (problem p))", "F10 Shape problem 0"),
    # The second part is expected to be the name, and no section.
    (DOMAIN, "(define (:goal ()))", "F10 Shape problem 0"),
    (DOMAIN,
     "; a problem\n"
     " (define (problem p))",
     "F10 Shape problem 13"),
]

PROBLEM_TWICE_ROWS = [
    (DOMAIN, "(define (problem x) (:domain x) (:domain x) (:goal ()))", "F14 TwiceDeclared problem 33"),
    (DOMAIN, "(define (problem x) (:init) (:goal ()) (:init))", "F14 TwiceDeclared problem 40"),
    (DOMAIN, "(define (problem x) (:goal ()) (:goal ()))", "F14 TwiceDeclared problem 32"),
    (DOMAIN, "(define (problem x) (:objects) (:objects) (:goal ()))", "F14 TwiceDeclared problem 32"),
    (DOMAIN, "(define (problem x) (:length) (:goal ()) (:length))", "F14 TwiceDeclared problem 42"),
    (DOMAIN, "(define (problem x) (:requirements) (:requirements) (:goal ()))", "F14 TwiceDeclared problem 37"),
    (DOMAIN, "(define (problem x) (:goal ()) (:metric minimize total-cost) (:metric minimize total-cost))", "F14 TwiceDeclared problem 62"),
    # Ignored parts are not tested.
    ("(define (domain x) (:predicates (= x (y))))", "(define (problem x) (:domain) (:requirements (x)) (:length) (:goal ()))", "valid 0"),
]


class Heads(ProgramTest):
    def test_the_word_define(self):
        self.domains_are_answered(DEFINE_ROWS)

    def test_the_name_of_a_domain(self):
        self.domains_are_answered(NAME_ROWS)

    def test_sections_of_a_domain(self):
        self.domains_are_answered(SECTION_ROWS)

    def test_sections_of_a_domain_that_come_twice(self):
        self.domains_are_answered(TWICE_ROWS)

    def test_requirements(self):
        self.domains_are_answered(REQUIREMENT_ROWS)

    def test_heads_of_a_problem(self):
        self.problems_are_answered(PROBLEM_ROWS)

    def test_a_problem_without_a_goal(self):
        self.problems_are_answered(NO_GOAL_ROWS)

    def test_sections_of_a_problem_that_come_twice(self):
        self.problems_are_answered(PROBLEM_TWICE_ROWS)

    def test_a_foreign_section_before_the_road(self):
        self.problems_are_answered([("(define (domain x) (:derived (p) (q)))", ROAD_PROBLEM, "F11 Unsupported :derived domain 20")])
