"""Faults of initial states."""

from program import ProgramTest

PREDICATE = "(define (domain x) (:predicates (p)))"

AT = "(define (domain x) (:predicates (at ?x)))"

ATOM_ROWS = [
    (PREDICATE, "(define (problem x) (:init (p) (q)) (:goal ()))", "F12 UnknownName problem 32"),
    (PREDICATE, "(define (problem x) (:objects o) (:init (p o)) (:goal ()))", "F13 Arity problem 40"),
    (AT, "(define (problem x) (:init (at o)) (:goal ()))", "F12 UnknownName problem 31"),
    (AT, "(define (problem x) (:init (at)) (:goal ()))", "F13 Arity problem 27"),
    (AT, "(define (problem x) (:init (at ?x)) (:goal ()))", "F12 UnknownName problem 31"),
    (AT, "(define (problem x) (:init (at ?)) (:goal ()))", "F10 Shape problem 31"),
    (AT, "(define (problem x) (:init ()) (:goal ()))", "F10 Shape problem 27"),
    (AT, "(define (problem x) (:init at) (:goal ()))", "F10 Shape problem 27"),
    (AT, "(define (problem x) (:init (?x)) (:goal ()))", "F10 Shape problem 28"),
    (AT, "(define (problem x) (:init ((at))) (:goal ()))", "F10 Shape problem 28"),
    (PREDICATE, "(define (problem x) (:init (and (p))) (:goal ()))", "F12 UnknownName problem 28"),
    ("(define (domain x) (:predicates (and)))", "(define (problem x) (:init (and)) (:goal ()))", "valid 0"),
    (PREDICATE, "(define (problem x) (:init (p) (p)) (:goal (and (p) (p))))", "valid 0"),
    (PREDICATE, "(define (problem x) (:goal (p)))", "goal open (p)"),
]

HEAD_ROWS = [
    (PREDICATE, "(define (problem x) (:init (or (p))) (:goal ()))", "F11 Unsupported or problem 28"),
    ("(define (domain x) (:predicates (or)))", "(define (problem x) (:init (or)) (:goal ()))", "F11 Unsupported or problem 28"),
    (PREDICATE, "(define (problem x) (:init (forall (?x) (p))) (:goal ()))", "F11 Unsupported forall problem 28"),
    (PREDICATE, "(define (problem x) (:init (not p)) (:goal ()))", "F11 Unsupported not problem 28"),
    (PREDICATE, "(define (problem x) (:init (not (zap))) (:goal ()))", "F12 UnknownName problem 33"),
    # A negated atom does not remove one that is stated.
    (PREDICATE, "(define (problem x) (:init (not (p)) (p)) (:goal (p)))", "valid 0"),
    (PREDICATE, "(define (problem x) (:init (p) (not (p))) (:goal (p)))", "valid 0"),
]

TIMED_ROWS = [
    (AT, "(define (problem x) (:init (at 5 (at 5))) (:goal ()))", "F11 Unsupported at problem 28"),
    (AT, "(define (problem x) (:init (at 5 (not (at 5)))) (:goal ()))", "F11 Unsupported at problem 28"),
    (AT, "(define (problem x) (:init (not (at (at 5)))) (:goal ()))", "F10 Shape problem 36"),
    ("(define (domain x) (:predicates (at ?x ?y)) (:constants a))",
     "(define (problem x) (:init (at (a) a)) (:goal ()))",
     "F10 Shape problem 31"),
]

FUNCTION = "(define (domain x) (:functions (f)))"

FUNCTION_OF_ONE = "(define (domain x) (:functions (f ?x)) (:constants a b))"

VALUE_ROWS = [
    (FUNCTION, "(define (problem x) (:init (= (f) +1)) (:goal ()))", "F10 Shape problem 34"),
    (FUNCTION, "(define (problem x) (:init (= (f) -5.5)) (:goal ()))", "F10 Shape problem 34"),
    (FUNCTION, "(define (problem x) (:init (= (f) (f))) (:goal ()))", "F10 Shape problem 34"),
    (FUNCTION, "(define (problem x) (:init (= (f))) (:goal ()))", "F10 Shape problem 27"),
    (FUNCTION, "(define (problem x) (:init (= (f) 1 1)) (:goal ()))", "F10 Shape problem 36"),
    (FUNCTION, "(define (problem x) (:init (= () 1)) (:goal ()))", "F10 Shape problem 30"),
    (FUNCTION, "(define (problem x) (:init (= (f) 1.5)) (:goal ()))", "F16 NotWhole problem 34"),
    (FUNCTION, "(define (problem x) (:init (= (f) 99999999999.5)) (:goal ()))", "F16 NotWhole problem 34"),
    (FUNCTION, "(define (problem x) (:init (= (f) -0)) (:goal ()))", "F17 CostRange problem 34"),
    (FUNCTION, "(define (problem x) (:init (= (f) 2147483648)) (:goal ()))", "F17 CostRange problem 34"),
    (FUNCTION, "(define (problem x) (:init (= (g) 1)) (:goal ()))", "F12 UnknownName problem 31"),
    (FUNCTION, "(define (problem x) (:init (= g 1)) (:goal ()))", "F12 UnknownName problem 30"),
    (FUNCTION_OF_ONE, "(define (problem x) (:init (= (f) 1)) (:goal ()))", "F13 Arity problem 30"),
    (FUNCTION_OF_ONE, "(define (problem x) (:init (= (f c) 1)) (:goal ()))", "F12 UnknownName problem 33"),
]

TWICE_ROWS = [
    (FUNCTION, "(define (problem x) (:init (= (f) 1) (= (f) 2)) (:goal ()))", "F14 TwiceDeclared problem 37"),
    (FUNCTION_OF_ONE, "(define (problem x) (:init (= (f a) 1) (= (f b) 2) (= (f a) 2)) (:goal ()))", "F14 TwiceDeclared problem 51"),
    (FUNCTION, "(define (problem x) (:init (= (f) 007) (= f 7.00)) (:goal ()))", "valid 0"),
    (FUNCTION_OF_ONE, "(define (problem x) (:init (= (f a) 1) (= (f b) 2) (= (f a) 1)) (:goal ()))", "valid 0"),
]

TOTAL_COST_ROWS = [
    (FUNCTION, "(define (problem x) (:init (= f 3) (= total-cost 0)) (:goal ()))", "valid 0"),
    (FUNCTION, "(define (problem x) (:init (= (total-cost) 0.0)) (:goal ()))", "valid 0"),
    (FUNCTION, "(define (problem x) (:init (= (total-cost) 7)) (:goal ()))", "F11 Unsupported total-cost problem 31"),
    (FUNCTION, "(define (problem x) (:init (= total-cost 7)) (:goal ()))", "F11 Unsupported total-cost problem 30"),
    (FUNCTION, "(define (problem x) (:init (= (total-cost) x)) (:goal ()))", "F10 Shape problem 43"),
    (FUNCTION, "(define (problem x) (:init (= (total-cost) 1.5)) (:goal ()))", "F16 NotWhole problem 43"),
    ("(define (domain x) (:constants a))", "(define (problem x) (:init (= (total-cost a) 0)) (:goal ()))", "F13 Arity problem 30"),
]


class InitialStates(ProgramTest):
    def test_atoms_at_the_beginning(self):
        self.problems_are_answered(ATOM_ROWS)

    def test_heads_at_the_beginning(self):
        self.problems_are_answered(HEAD_ROWS)

    def test_timed_literals(self):
        self.problems_are_answered(TIMED_ROWS)

    def test_values_of_functions(self):
        self.problems_are_answered(VALUE_ROWS)

    def test_functions_with_two_values(self):
        self.problems_are_answered(TWICE_ROWS)

    def test_the_total_cost_at_the_beginning(self):
        self.problems_are_answered(TOTAL_COST_ROWS)
