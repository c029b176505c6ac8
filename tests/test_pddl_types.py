"""Faults of types, constants and objects."""

from program import ProgramTest

LIST_ROWS = [
    ("(define (domain x) (:types - a))", "F10 Shape domain 27"),
    ("(define (domain x) (:types a - b - c))", "F10 Shape domain 33"),
    ("(define (domain x) (:types a - (b)))", "F10 Shape domain 31"),
    ("(define (domain x) (:types a - ?b))", "F10 Shape domain 31"),
    ("(define (domain x) (:types a - -))", "F10 Shape domain 31"),
    ("(define (domain x) (:types a -))", "F10 Shape domain 19"),
    ("(define (domain x) (:types ()))", "F10 Shape domain 27"),
    ("(define (domain x) (:types a ?b))", "F10 Shape domain 29"),
    ("(define (domain x) (:types :a b))", "F10 Shape domain 27"),
    ("(define (domain x) (:types (either a b)))", "F10 Shape domain 27"),
    ("(define (domain x) (:types a b - c d))", "valid 0"),
]

EITHER_ROWS = [
    ("(define (domain x) (:types a - (either b c)))", "F11 Unsupported either domain 32"),
    ("(define (domain x) (:types a - either))", "F11 Unsupported either domain 31"),
    ("(define (domain x) (:types either a - either))", "F11 Unsupported either domain 38"),
    ("(define (domain x) (:constants a - (either b c)))", "F11 Unsupported either domain 36"),
    ("(define (domain x) (:predicates (p ?x - (either b c))))", "F11 Unsupported either domain 41"),
    # A list with `either` declares no second type of a.
    ("(define (domain x) (:types a - t a - (either u v)))", "F11 Unsupported either domain 38"),
    # An unused type of that name is no fault.
    ("(define (domain x) (:types either))", "valid 0"),
]

CYCLE_ROWS = [
    ("(define (domain x) (:types a - a))", "F15 TypeCycle domain 27"),
    ("(define (domain x) (:types a - b b - a))", "F15 TypeCycle domain 27"),
    # A type below a cycle, but not on it, is no fault.
    ("(define (domain x) (:types c - a a - b b - a))", "F15 TypeCycle domain 33"),
    ("(define (domain x) (:types object - a))", "F15 TypeCycle domain 27"),
    ("(define (domain x) (:types a - object object - a))", "F15 TypeCycle domain 27"),
    ("(define (domain x) (:types object a - object))", "valid 0"),
    ("(define (domain x) (:types object - object))", "valid 0"),
]

TYPE_TWICE_ROWS = [
    ("(define (domain x) (:types a - b a - c))", "F14 TwiceDeclared domain 33"),
    ("(define (domain x) (:types a - b a))", "F14 TwiceDeclared domain 33"),
    ("(define (domain x) (:types a - b a - b))", "valid 0"),
    ("(define (domain x) (:types a a - object))", "valid 0"),
    # The first mention determines the supertype, so the second makes no cycle.
    ("(define (domain x) (:types a - b a - c c - a))", "F14 TwiceDeclared domain 33"),
]

CONSTANT_ROWS = [
    ("(define (domain x) (:constants a - no))", "F12 UnknownName domain 35"),
    ("(define (domain x) (:types t - u) (:constants a - u b - t c))", "valid 0"),
    ("(define (domain x) (:types t) (:constants a - t a))", "F14 TwiceDeclared domain 48"),
    ("(define (domain x) (:types t) (:constants a - t a - no))", "F14 TwiceDeclared domain 48"),
    ("(define (domain x) (:types t) (:constants a - t a - t))", "valid 0"),
    ("(define (domain x) (:constants ?a))", "F10 Shape domain 31"),
    ("(define (domain x) (:constants ()))", "F10 Shape domain 31"),
    ("(define (domain x) (:constants a -))", "F10 Shape domain 19"),
]

DOMAIN = "(define (domain x) (:types t u) (:constants a - t))"

OBJECT_ROWS = [
    (DOMAIN, "(define (problem x) (:objects b - no) (:goal ()))", "F12 UnknownName problem 34"),
    (DOMAIN, "(define (problem x) (:objects b - t b - u) (:goal ()))", "F14 TwiceDeclared problem 36"),
    (DOMAIN, "(define (problem x) (:objects b - t b - t) (:goal ()))", "valid 0"),
    # A constant is an object already.
    (DOMAIN, "(define (problem x) (:objects a) (:goal ()))", "F14 TwiceDeclared problem 30"),
    (DOMAIN, "(define (problem x) (:objects a - t) (:goal ()))", "valid 0"),
    (DOMAIN, "(define (problem x) (:objects ?b) (:goal ()))", "F10 Shape problem 30"),
    (DOMAIN, "(define (problem x) (:objects b ()) (:goal ()))", "F10 Shape problem 32"),
    (DOMAIN, "(define (problem x) (:objects - t) (:goal ()))", "F10 Shape problem 30"),
    (DOMAIN, "(define (problem x) (:objects b - (either t u)) (:goal ()))", "F11 Unsupported either problem 35"),
    ("(define (domain x) (:types t) (:constants a - t))", "(define (problem x) (:objects a) (:goal ()))", "F14 TwiceDeclared problem 30"),
]


class Types(ProgramTest):
    def test_lists_of_types(self):
        self.domains_are_answered(LIST_ROWS)

    def test_one_type_of_several(self):
        self.domains_are_answered(EITHER_ROWS)

    def test_cycles_of_types(self):
        self.domains_are_answered(CYCLE_ROWS)

    def test_types_declared_twice(self):
        self.domains_are_answered(TYPE_TWICE_ROWS)

    def test_constants(self):
        self.domains_are_answered(CONSTANT_ROWS)

    def test_objects(self):
        self.problems_are_answered(OBJECT_ROWS)
