"""Faults of actions: their parts, parameters, conditions and effects."""

from program import ProgramTest

PART_ROWS = [
    ("(define (domain x) (:action))", "F10 Shape domain 19"),
    ("(define (domain x) (:action ?a))", "F10 Shape domain 28"),
    ("(define (domain x) (:action :parameters ()))", "F10 Shape domain 28"),
    ("(define (domain x) (:action (a)))", "F10 Shape domain 28"),
    ("(define (domain x) (:action b :duration ()))", "F10 Shape domain 30"),
    ("(define (domain x) (:action b ()))", "F10 Shape domain 30"),
    ("(define (domain x) (:action b :effect () c))", "F10 Shape domain 41"),
    ("(define (domain x) (:action b :effect))", "F10 Shape domain 19"),
    ("(define (domain x) (:action b :parameters :effect ()))", "F10 Shape domain 42"),
    ("(define (domain x) (:action a :effect () :precondition () :parameters ()))", "valid 0"),
    ("(define (domain x) (:action b :parameters () :precondition () :effect (and () ())))", "valid 0"),
    ("(define (domain x) (:action a))", "valid 0"),
]

TWICE_ROWS = [
    ("(define (domain x) (:action a :effect () :effect ()))", "F14 TwiceDeclared domain 41"),
    ("(define (domain x) (:action a :parameters () :parameters ()))", "F14 TwiceDeclared domain 45"),
    ("(define (domain x) (:action a :precondition () :precondition ()))", "F14 TwiceDeclared domain 47"),
    ("(define (domain x) (:action a) (:action b) (:action A))", "F14 TwiceDeclared domain 52"),
]

PARAMETER_ROWS = [
    ("(define (domain x) (:action a :parameters ?x))", "F10 Shape domain 42"),
    ("(define (domain x) (:action a :parameters (x)))", "F10 Shape domain 43"),
    ("(define (domain x) (:action a :parameters (?)))", "F10 Shape domain 43"),
    ("(define (domain x) (:action a :parameters (())))", "F10 Shape domain 43"),
    ("(define (domain x) (:action a :parameters (?x - no)))", "F12 UnknownName domain 48"),
    ("(define (domain x) (:action a :parameters (?x ?y ?X)))", "F14 TwiceDeclared domain 49"),
    ("(define (domain x) (:action a :parameters (?x -)))", "F10 Shape domain 42"),
    # A parameter that no valid list declares is unknown.
    ("(define (domain x) (:predicates (p ?x)) (:action b :precondition (p ?x) :parameters foo))", "F12 UnknownName domain 68"),
    # The first of two lists counts.
    ("(define (domain x) (:predicates (p ?x)) (:action b :effect (p ?y) :parameters (?x) :parameters (?y)))", "F12 UnknownName domain 62"),
    # A word that is no keyword is skipped alone.
    ("(define (domain x) (:predicates (p ?x)) (:action b :effect (p ?x) :duration :parameters (?x)))", "F10 Shape domain 66"),
    # If a condition is expected, a keyword is read as the condition.
    ("(define (domain x) (:predicates (p ?x)) (:action b :effect (p ?x) :precondition :parameters (?x)))", "F12 UnknownName domain 62"),
]

CONDITION_ROWS = [
    ("(define (domain x) (:action b :precondition p))", "F10 Shape domain 44"),
    ("(define (domain x) (:action b :precondition ((p))))", "F10 Shape domain 45"),
    ("(define (domain x) (:action b :parameters (?x) :precondition (?x)))", "F10 Shape domain 62"),
    ("(define (domain x) (:action b :precondition (:p)))", "F10 Shape domain 45"),
    ("(define (domain x) (:action b :precondition (-)))", "F10 Shape domain 45"),
    ("(define (domain x) (:action b :precondition (and () p)))", "F10 Shape domain 52"),
    ("(define (domain x) (:predicates (p)) (:action b :precondition (and (and) (and (p) (not (p))))))", "valid 0"),
]

ATOM_ROWS = [
    ("(define (domain x) (:action b :precondition (p)))", "F12 UnknownName domain 45"),
    ("(define (domain x) (:predicates (p ?x)) (:action b :precondition (p o)))", "F12 UnknownName domain 68"),
    ("(define (domain x) (:predicates (p ?x)) (:action b :precondition (p ?x)))", "F12 UnknownName domain 68"),
    ("(define (domain x) (:action b :parameters (?x) :precondition (= ?x ?y)))", "F12 UnknownName domain 67"),
    ("(define (domain x) (:predicates (p ?x)) (:action b :precondition (p ())))", "F10 Shape domain 68"),
    ("(define (domain x) (:predicates (p ?x)) (:action b :precondition (p)))", "F13 Arity domain 65"),
    ("(define (domain x) (:predicates (p)) (:constants c) (:action b :precondition (not (p c))))", "F13 Arity domain 82"),
    ("(define (domain x) (:predicates (p ?x)) (:action a :effect (p)))", "F13 Arity domain 59"),
    ("(define (domain x) (:predicates (p)) (:action a :parameters (?x) :effect (p ?x)))", "F13 Arity domain 73"),
    ("(define (domain x) (:action b :effect (p)))", "F12 UnknownName domain 39"),
    ("(define (domain x) (:predicates (p ?x)) (:action b :effect (not (p ?x))))", "F12 UnknownName domain 67"),
    # The types of an atom's arguments are not enforced.
    ("(define (domain x) (:types t) (:predicates (p ?x - t)) (:constants c) (:action b :effect (p c)))", "valid 0"),
]

EQUALITY_ROWS = [
    ("(define (domain x) (:action a :parameters (?x) :precondition (= ?x)))", "F10 Shape domain 61"),
    ("(define (domain x) (:action a :parameters (?x) :precondition (= ?x ?x ?x)))", "F10 Shape domain 70"),
    ("(define (domain x) (:action a :parameters (?x) :precondition (not (= ?x))))", "F10 Shape domain 66"),
    ("(define (domain x) (:functions (f)) (:action b :precondition (= (f) 3)))", "F10 Shape domain 64"),
    ("(define (domain x) (:action a :parameters (?x) :precondition (and (= ?x ?x) (not (= ?x ?x)))))", "valid 0"),
    # In an effect `=` is not equality, but a predicate that cannot be declared.
    ("(define (domain x) (:constants a) (:action b :effect (= a a)))", "F12 UnknownName domain 54"),
    ("(define (domain x) (:constants a) (:action b :effect (not (= a a))))", "F12 UnknownName domain 59"),
]

NEGATION_ROWS = [
    ("(define (domain x) (:action a :precondition (not)))", "F10 Shape domain 44"),
    ("(define (domain x) (:predicates (p)) (:action a :precondition (not (p) (p))))", "F10 Shape domain 71"),
    ("(define (domain x) (:action a :precondition (not p)))", "F11 Unsupported not domain 45"),
    ("(define (domain x) (:action a :precondition (not ())))", "F11 Unsupported not domain 45"),
    ("(define (domain x) (:action a :precondition (not (or))))", "F11 Unsupported not domain 45"),
    ("(define (domain x) (:action a :precondition (not (and))))", "F11 Unsupported not domain 45"),
    ("(define (domain x) (:predicates (p)) (:action a :precondition (not (not (p)))))", "F11 Unsupported not domain 63"),
    ("(define (domain x) (:action a :precondition (not (?x))))", "F11 Unsupported not domain 45"),
    ("(define (domain x) (:action a :precondition (not (:p))))", "F11 Unsupported not domain 45"),
    ("(define (domain x) (:action a :precondition (not ((p)))))", "F11 Unsupported not domain 45"),
    ("(define (domain x) (:action a :precondition (not (zap))))", "F12 UnknownName domain 50"),
    ("(define (domain x) (:action a :effect (not (increase (total-cost) 1))))", "F11 Unsupported not domain 39"),
    ("(define (domain x) (:action a :effect (not ())))", "F11 Unsupported not domain 39"),
    ("(define (domain x) (:action a :effect (not)))", "F10 Shape domain 38"),
]

HEADS = [
    "or",
    "imply",
    "forall",
    "exists",
    "when",
    "preference",
    "<",
    ">",
    "<=",
    ">=",
    "assign",
    "decrease",
    "scale-up",
    "scale-down",
]


class Actions(ProgramTest):
    def test_parts_of_actions(self):
        self.domains_are_answered(PART_ROWS)

    def test_parts_and_actions_that_come_twice(self):
        self.domains_are_answered(TWICE_ROWS)

    def test_parameters(self):
        self.domains_are_answered(PARAMETER_ROWS)

    def test_shapes_of_conditions(self):
        self.domains_are_answered(CONDITION_ROWS)

    def test_atoms(self):
        self.domains_are_answered(ATOM_ROWS)

    def test_equalities(self):
        self.domains_are_answered(EQUALITY_ROWS)

    def test_negations(self):
        self.domains_are_answered(NEGATION_ROWS)

    def test_an_object_of_the_problem_is_unknown_in_an_action(self):
        domain = "(define (domain x) (:predicates (p ?x)) (:action b :effect (p o)))"
        problem = "(define (problem x) (:objects o) (:goal ()))"
        self.problems_are_answered([(domain, problem, "F12 UnknownName domain 62")])

    def test_heads_that_are_not_read(self):
        for before, after, place in [
            ("(define (domain x) (:action a :precondition (", " (p))))", 45),
            ("(define (domain x) (:action a :precondition (and (", " (p)))))", 50),
            ("(define (domain x) (:action a :effect (", " (p))))", 39),
            # A predicate of that name changes nothing.
            ("(define (domain x) (:action a :effect (", "))(:predicates (or)(<=)(when)))", 39),
        ]:
            self.domains_are_answered([(before + head + after, f"F11 Unsupported {head} domain {place}") for head in HEADS])
