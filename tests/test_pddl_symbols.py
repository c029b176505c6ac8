"""Faults of predicates and functions."""

from program import ProgramTest

PREDICATE_ROWS = [
    ("(define (domain x) (:predicates p))", "F10 Shape domain 32"),
    ("(define (domain x) (:predicates ()))", "F10 Shape domain 32"),
    ("(define (domain x) (:predicates (?p)))", "F10 Shape domain 33"),
    ("(define (domain x) (:predicates ((p))))", "F10 Shape domain 33"),
    ("(define (domain x) (:predicates (p x)))", "F10 Shape domain 35"),
    ("(define (domain x) (:predicates (p ?)))", "F10 Shape domain 35"),
    ("(define (domain x) (:predicates (p (?x))))", "F10 Shape domain 35"),
    ("(define (domain x) (:predicates (p - object)))", "F10 Shape domain 35"),
    ("(define (domain x) (:predicates (p ?x -)))", "F10 Shape domain 32"),
    ("(define (domain x) (:predicates (p ?x - ?t)))", "F10 Shape domain 40"),
    ("(define (domain x) (:predicates (p ?x - no)))", "F12 UnknownName domain 40"),
    ("(define (domain x) (:predicates (p) (q) (P ?x)))", "F14 TwiceDeclared domain 41"),
    ("(define (domain x) (:predicates (p ?x ?y ?x)))", "F14 TwiceDeclared domain 41"),
    ("(define (domain x) (:types t) (:predicates (p ?x - t ?y ?z) (q ?x)))", "valid 0"),
]

FUNCTION_ROWS = [
    ("(define (domain x) (:functions total-cost))", "F10 Shape domain 31"),
    ("(define (domain x) (:functions ()))", "F10 Shape domain 31"),
    ("(define (domain x) (:functions (?f)))", "F10 Shape domain 32"),
    ("(define (domain x) (:functions (f x)))", "F10 Shape domain 34"),
    ("(define (domain x) (:functions (f ?x - no)))", "F12 UnknownName domain 39"),
    ("(define (domain x) (:functions (f) (f ?x)))", "F14 TwiceDeclared domain 36"),
    ("(define (domain x) (:functions (f ?x ?x)))", "F14 TwiceDeclared domain 37"),
    ("(define (domain x) (:functions (total-cost) (total-cost)))", "F14 TwiceDeclared domain 45"),
    ("(define (domain x) (:functions (f) (g ?x) - number (h)))", "valid 0"),
]

FUNCTION_TYPE_ROWS = [
    ("(define (domain x) (:functions - number))", "F10 Shape domain 31"),
    ("(define (domain x) (:functions (f) - number - number))", "F10 Shape domain 44"),
    ("(define (domain x) (:functions (f) - (number)))", "F10 Shape domain 37"),
    ("(define (domain x) (:functions (f) -))", "F10 Shape domain 19"),
    ("(define (domain x) (:functions (f) - -))", "F11 Unsupported - domain 37"),
    ("(define (domain x) (:functions (f) - object))", "F11 Unsupported object domain 37"),
    ("(define (domain x) (:functions (f) - ?x))", "F11 Unsupported ?x domain 37"),
    ("(define (domain x) (:functions (f) - (either number)))", "F11 Unsupported either domain 38"),
]

NAME_ROWS = [
    # A predicate named `=` is ignored, a function of that name is not.
    ("(define (domain x) (:predicates (= ?x) (= ?x)))", "valid 0"),
    ("(define (domain x) (:functions (=) (=)))", "F14 TwiceDeclared domain 36"),
    # Names that are keywords elsewhere, and names for several things.
    ("(define (domain x) (:predicates (or) (and) (not) (5)) (:functions (5)) (:constants 5))", "valid 0"),
    ("(define (domain x) (:types a) (:constants a) (:predicates (a)) (:functions (a)) (:action a))", "valid 0"),
    ("(define (domain x) (:predicates (increase)) (:action b :precondition (increase)))", "valid 0"),
    ("(define (domain x) (:predicates (-)))", "F10 Shape domain 33"),
    ("(define (domain x) (:predicates (:p)))", "F10 Shape domain 33"),
]


class Symbols(ProgramTest):
    def test_predicates(self):
        self.domains_are_answered(PREDICATE_ROWS)

    def test_functions(self):
        self.domains_are_answered(FUNCTION_ROWS)

    def test_what_functions_give(self):
        self.domains_are_answered(FUNCTION_TYPE_ROWS)

    def test_names(self):
        self.domains_are_answered(NAME_ROWS)
