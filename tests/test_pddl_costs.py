"""Faults of increases, of the numbers in them and of their sums."""

from program import ProgramTest, validated

INCREASE_ROWS = [
    ("(define (domain x) (:functions (f)) (:action b :effect (increase (f) 1)))", "F11 Unsupported increase domain 56"),
    ("(define (domain x) (:action b :effect (increase (zap) 1)))", "F11 Unsupported increase domain 39"),
    ("(define (domain x) (:action b :effect (increase f 1)))", "F11 Unsupported increase domain 39"),
    ("(define (domain x) (:action b :effect (increase () 5)))", "F10 Shape domain 48"),
    ("(define (domain x) (:action b :effect (increase ?x 5)))", "F10 Shape domain 48"),
    ("(define (domain x) (:action b :effect (increase)))", "F10 Shape domain 38"),
    ("(define (domain x) (:action b :effect (increase (total-cost))))", "F10 Shape domain 38"),
    ("(define (domain x) (:action b :effect (increase (total-cost) 1 2)))", "F10 Shape domain 63"),
    ("(define (domain x) (:constants a) (:action b :effect (increase (total-cost a) 1)))", "F13 Arity domain 63"),
    ("(define (domain x) (:action b :effect (and (increase total-cost 1) (increase (TOTAL-COST) 2))))", "valid 0"),
    ("(define (domain x) (:functions (total-cost ?x)) (:action b :effect (increase (total-cost) 1)))", "valid 0"),
    # In a condition an increase is read as an atom.
    ("(define (domain x) (:action b :precondition (increase (total-cost) 1)))", "F12 UnknownName domain 45"),
]

NUMBER_ROWS = [
    ("(define (domain x) (:action b :effect (increase (total-cost) 5.5)))", "F16 NotWhole domain 61"),
    ("(define (domain x) (:action b :effect (increase (total-cost) 0.01)))", "F16 NotWhole domain 61"),
    ("(define (domain x) (:action b :effect (increase (total-cost) 2147483648)))", "F17 CostRange domain 61"),
    ("(define (domain x) (:action b :effect (increase (total-cost) 2147483648.0)))", "F17 CostRange domain 61"),
    ("(define (domain x) (:action b :effect (increase (total-cost) 99999999999999999999999)))", "F17 CostRange domain 61"),
    ("(define (domain x) (:action b :effect (increase (total-cost) -1)))", "F17 CostRange domain 61"),
    ("(define (domain x) (:action b :effect (increase (total-cost) -1.0)))", "F17 CostRange domain 61"),
    ("(define (domain x) (:action b :effect (increase (total-cost) 2147483647.00)))", "valid 0"),
    ("(define (domain x) (:action b :effect (increase (total-cost) 00)))", "valid 0"),
]

TERM_ROWS = [
    ("(define (domain x) (:action b :effect (increase (total-cost) 1.)))", "F12 UnknownName domain 61"),
    ("(define (domain x) (:action b :effect (increase (total-cost) 1e3)))", "F12 UnknownName domain 61"),
    ("(define (domain x) (:action b :effect (increase (total-cost) -5.5)))", "F12 UnknownName domain 61"),
    ("(define (domain x) (:action b :effect (increase (total-cost) .5)))", "F12 UnknownName domain 61"),
    ("(define (domain x) (:action b :effect (increase (total-cost) +1)))", "F12 UnknownName domain 61"),
    ("(define (domain x) (:action b :effect (increase (total-cost) ?x)))", "F10 Shape domain 61"),
    ("(define (domain x) (:action b :effect (increase (total-cost) -)))", "F10 Shape domain 61"),
    ("(define (domain x) (:action b :effect (increase (total-cost) ())))", "F10 Shape domain 61"),
    ("(define (domain x) (:action b :effect (increase (total-cost) (+ 1 2))))", "F12 UnknownName domain 62"),
    ("(define (domain x) (:functions (f ?x)) (:action b :effect (increase (total-cost) (f))))", "F13 Arity domain 81"),
    ("(define (domain x) (:functions (f ?x)) (:action b :effect (increase (total-cost) f)))", "F13 Arity domain 81"),
    ("(define (domain x) (:functions (f ?x)) (:action b :effect (increase (total-cost) (f o))))", "F12 UnknownName domain 84"),
    ("(define (domain x) (:functions (f))\n"
     " (:action b :effect (and (increase (total-cost) f) (increase (total-cost) (f)))))",
     "valid 0"),
    ("(define (domain x) (:functions (5)) (:action b :effect (increase (total-cost) (5))))", "valid 0"),
    ("(define (domain x) (:action b :effect (increase (total-cost) (total-cost))))", "F11 Unsupported total-cost domain 62"),
    ("(define (domain x) (:action b :effect (increase (total-cost) total-cost)))", "F11 Unsupported total-cost domain 61"),
    ("(define (domain x) (:constants a) (:action b :effect (increase (total-cost) (total-cost a))))",
     "F11 Unsupported total-cost domain 77"),
]

TWO_INCREASES = (
    "(define (domain x) (:functions (f ?x)) (:constants c)\n"
    " (:action b :effect (and (increase (total-cost) 2147483647) (increase (total-cost) (f c)))))"
)

SUM_ROWS = [
    # A function without a value adds nothing.
    (TWO_INCREASES, "(define (problem x) (:goal ()) (:metric minimize (total-cost)))", "valid 0"),
    (TWO_INCREASES, "(define (problem x) (:init (= (f c) 0)) (:goal ()) (:metric minimize (total-cost)))", "valid 0"),
    # The greatest value counts, whether or not an action increases by it.
    (TWO_INCREASES,
     "(define (problem x) (:objects d) (:init (= (f c) 0) (= (f d) 1))\n"
     " (:goal ()) (:metric minimize (total-cost)))",
     "F17 CostRange domain 64"),
    (TWO_INCREASES, "(define (problem x) (:objects d) (:init (= (f c) 0) (= (f d) 1)) (:goal ()))", "valid 0"),
    # The first of two actions.
    ("(define (domain x) (:action a :effect (increase (total-cost) 2147483647))\n"
     " (:action b :effect (and (increase (total-cost) 2147483647) (increase (total-cost) 2147483647)))\n"
     " (:action c :effect (and (increase (total-cost) 2147483647) (increase (total-cost) 1))))",
     "(define (problem x) (:goal ()) (:metric minimize (total-cost)))",
     "F17 CostRange domain 84"),
]


class Costs(ProgramTest):
    def test_increases(self):
        self.domains_are_answered(INCREASE_ROWS)

    def test_numbers_of_increases(self):
        self.domains_are_answered(NUMBER_ROWS)

    def test_terms_of_increases(self):
        self.domains_are_answered(TERM_ROWS)

    def test_sums_of_increases(self):
        self.problems_are_answered(SUM_ROWS)

    def test_a_value_is_not_needed_without_the_metric(self):
        domain = ("(define (domain x) (:predicates (p)) (:functions (f))\n"
                  " (:action b :effect (and (p) (increase (total-cost) (f)))))")
        self.is_answered(validated(domain, "(define (problem x) (:goal (p)))", "(b)"), "valid 1")
        problem = "(define (problem x) (:goal (p)) (:metric minimize total-cost))"
        self.is_answered(validated(domain, problem, "(b)"), "no such action 1")
