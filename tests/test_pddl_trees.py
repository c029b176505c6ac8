"""Faults of the three texts as trees."""

from program import ProgramTest, validated

DOMAIN_ROWS = [
    ("(define (domain x", "F2 Unclosed domain 8"),
    ("(define (domain x)", "F2 Unclosed domain 0"),
    (")", "F3 StrayClose domain 0"),
    ("(define (domain x)) )", "F3 StrayClose domain 20"),
    ("", "F6 Empty domain"),
    (" \t\r\n", "F6 Empty domain"),
    ("; only\n"
     ";",
     "F6 Empty domain"),
    ("(define (domain x)) x", "F7 Trailing domain 20"),
    ("(define (domain x)) (x)", "F7 Trailing domain 20"),
    ("(define (domain x)) x (", "F7 Trailing domain 20"),
    ("(DEFINE (DOMAIN X)) ; end", "valid 0"),
    ("(define\t(domain\r"
     "x)\n"
     ")",
     "valid 0"),
]

BYTE_ROWS = [
    ("(define (domain x)\x0c"
     ")",
     "F1 NotAscii domain 18"),
    ("(define (domain x)\x0b"
     ")",
     "F1 NotAscii domain 18"),
    ("(define (domain x)\0)", "F1 NotAscii domain 18"),
    ("(define (domain é))", "F1 NotAscii domain 16"),
    ("(define (domain x)) \x7f", "F1 NotAscii domain 20"),
    # A comment may have any bytes, and only a line feed ends it.
    ("(define (domain x)) ; é\0\x7f", "valid 0"),
    ("(define (domain x) ; )\n"
     " )",
     "valid 0"),
    ("(define (domain x) ; c\r"
     " )",
     "F2 Unclosed domain 0"),
]

ORDER_ROWS = [
    # An open list is the fault only if nothing else is wrong.
    ("(define (domain x\x01", "F1 NotAscii domain 17"),
    ("(define (domain x)) ) (", "F3 StrayClose domain 20"),
    # The first place is reported.
    ("(define \x01) )", "F1 NotAscii domain 8"),
    (") \x01", "F3 StrayClose domain 0"),
    ("(define) ) x \x01", "F3 StrayClose domain 9"),
    ("(define) x \x01 )", "F7 Trailing domain 9"),
]

PROBLEM_ROWS = [
    ("(define (domain x))", "(define (problem x", "F2 Unclosed problem 8"),
    ("(define (domain x))", "", "F6 Empty problem"),
    ("(define (domain x))", "(define (problem p) (:goal ())) )", "F3 StrayClose problem 32"),
    ("(define (domain x))", "(define (problem p) (:goal ())) x", "F7 Trailing problem 32"),
    ("(define (domain x))", "(define (problem p) (:goal ()) \x7f)", "F1 NotAscii problem 31"),
    ("(define (domain x))",
     "(define (problem r1) (:domain road)\n"
     " (:objects a b c - loc)\n"
     " (:init (at a) (road a b) (road b c))\n"
     " (:goal (at c)))\n"
     ")",
     "F3 StrayClose problem 115"),
]

EMPTY_PROBLEM = "(define (problem p) (:goal ()))"

PLAN_ROWS = [
    (EMPTY_PROBLEM, "(go a b", "F2 Unclosed plan 0"),
    (EMPTY_PROBLEM, "(go a b))", "F3 StrayClose plan 8"),
    (EMPTY_PROBLEM, "(go a \x7f)", "F1 NotAscii plan 6"),
    (EMPTY_PROBLEM,
     "; é\n"
     " ;",
     "valid 0"),
]


class Trees(ProgramTest):
    def test_domains_as_trees(self):
        self.domains_are_answered(DOMAIN_ROWS)

    def test_bytes_that_no_text_has(self):
        self.domains_are_answered(BYTE_ROWS)

    def test_the_first_fault_of_a_tree(self):
        self.domains_are_answered(ORDER_ROWS)

    def test_problems_as_trees(self):
        self.problems_are_answered(PROBLEM_ROWS)

    def test_plans_as_trees(self):
        self.plans_are_answered("(define (domain x))", PLAN_ROWS)

    def test_two_hundred_levels(self):
        too_deep, deepest = "(" * 201, "(" * 200
        domain = "(define (domain x))"
        self.is_answered(validated(too_deep, EMPTY_PROBLEM), "F4 TooDeep domain 200")
        self.is_answered(validated(deepest, EMPTY_PROBLEM), "F2 Unclosed domain 199")
        self.is_answered(validated(domain, too_deep), "F4 TooDeep problem 200")
        self.is_answered(validated(domain, EMPTY_PROBLEM, too_deep), "F4 TooDeep plan 200")

    def test_a_condition_of_two_hundred_levels(self):
        before = "(define (domain x) (:action a :precondition "
        for count, answer in [(198, "valid 0"), (199, "F4 TooDeep domain 1034")]:
            domain = before + "(and " * count + ")" * count + "))"
            self.is_answered(validated(domain, EMPTY_PROBLEM), answer, count=count)
