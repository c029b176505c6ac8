"""Texts and tables at their limits, and with one item more."""

from program import ProgramTest, validated
from texts import ROAD_DOMAIN, ROAD_PROBLEM

# 19 bytes.
DOMAIN = "(define (domain x))"
# 31 bytes.
PROBLEM = "(define (problem p) (:goal ()))"
# The greatest text, in bytes.
MAX_BYTES = 16_777_216


def numbered(before, count, after):
    """Returns `count` items, each with its number, counted from 0, between two texts."""
    return "".join(f"{before}{number}{after}" for number in range(count))


class Limits(ProgramTest):
    """Tables and texts at their limits."""

    def one_more(self, domain, closing, rows):
        """Fails unless a domain is accepted as it is, and has the answers of the rows with one more item at its end."""
        self.is_answered(validated(domain + closing, PROBLEM), "valid 0")
        for item, answer in rows:
            self.is_answered(validated(domain + item + closing, PROBLEM), answer, item=item)

    def test_five_hundred_and_twelve_predicates(self):
        predicates = numbered("(p", 512, ") ")
        # A predicate named `=` is ignored.
        self.one_more(f"(define (domain x) (:predicates (= ?x) {predicates}", "))", [("(q)", "F18 Limit predicates domain 3513")])
        # A list that is no predicate is counted too, and its own fault is reported first.
        self.one_more(f"(define (domain x) (:predicates {predicates}", "))", [
            ("(q)", "F18 Limit predicates domain 3506"),
            ("(p0)", "F18 Limit predicates domain 3506"),
            ("()", "F10 Shape domain 3506"),
        ])

    def test_five_hundred_and_twelve_functions(self):
        functions = numbered("(f", 512, ") ")
        self.one_more(f"(define (domain x) (:functions {functions}", "))", [("(g)", "F18 Limit functions domain 3505")])

    def test_five_hundred_and_twelve_actions(self):
        actions = numbered("(:action a", 512, ") ")
        self.one_more(f"(define (domain x) {actions}", ")", [("(:action b)", "F18 Limit schemas domain 7589")])
        # They are counted when the actions are read, after the types.
        self.domains_are_answered([(f"(define (domain x) (:types - a) {actions}(:action b))", "F10 Shape domain 27")])

    def test_sixteen_parameters(self):
        variables = numbered("?v", 16, " ")
        self.one_more(f"(define (domain x) (:predicates (p {variables}", ")))", [("?w", "F18 Limit arguments domain 105")])
        self.one_more(f"(define (domain x) (:functions (f {variables}", ")))", [("?w", "F18 Limit arguments domain 104")])
        self.one_more(f"(define (domain x) (:action a :parameters ({variables}", ")))", [("?w", "F18 Limit arguments domain 113")])

    def test_literals_of_an_action(self):
        domain = "(define (domain x) (:predicates (q)) (:action b :precondition (and " + "(q) " * 256
        self.one_more(domain, ")))", [("(not (q))", "F18 Limit literals domain 1091")])
        # An empty conjunction is no literal.
        self.one_more(domain + "(and) ", ")))", [("(q)", "F18 Limit literals domain 1097")])

    def test_literals_of_condition_and_effect_together(self):
        half = "(q) " * 128
        domain = f"(define (domain x) (:predicates (q)) (:action b :precondition (and {half}) :effect (and {half}"
        self.one_more(domain, ")))", [("(not (q))", "F18 Limit literals domain 1106")])
        domain = "(define (domain x) (:action b :parameters (?x) :precondition (and " + "(= ?x ?x) " * 256
        self.one_more(domain, ")))", [("(not (= ?x ?x))", "F18 Limit literals domain 2626")])

    def test_sixteen_increases(self):
        domain = "(define (domain x) (:action b :effect (and " + "(increase (total-cost) 1) " * 16
        self.one_more(domain, ")))", [("(increase total-cost 1)", "F18 Limit increases domain 459")])

    def test_four_thousand_and_ninety_six_constants(self):
        names = numbered("o", 4096, " ")
        # A repeated name is counted once.
        self.one_more(f"(define (domain x) (:constants {names}", "))", [("o0 q", "F18 Limit objects domain 23500")])

    def test_constants_and_objects_together(self):
        domain = "(define (domain x) (:constants c))"
        names = numbered("o", 4095, " ")
        self.problems_are_answered([
            (domain, f"(define (problem x) (:objects {names} c) (:goal ()))", "valid 0"),
            (domain, f"(define (problem x) (:objects {names}q) (:goal ()))", "F18 Limit objects problem 23490"),
        ])

    def test_a_million_items_of_an_initial_state(self):
        domain = "(define (domain x) (:predicates (p)))"
        items = "(p) " * 1_000_000
        full = f"(define (problem x) (:init {items}) (:goal (p)))"
        over = f"(define (problem x) (:init {items}(not (p))) (:goal (p)))"
        self.is_answered(validated(domain, full), "valid 0")
        self.is_answered(validated(domain, over), "F18 Limit init problem 4000027")

    def test_domains_of_sixteen_mebibytes(self):
        longest = DOMAIN + " " * (MAX_BYTES - len(DOMAIN))
        self.is_answered(validated(longest, PROBLEM), "valid 0")
        self.is_answered(validated(longest + " ", PROBLEM), "F5 TooLong domain")
        # The length is tested first.
        self.is_answered(validated(")" * (MAX_BYTES + 1), ""), "F5 TooLong domain")

    def test_problems_of_sixteen_mebibytes(self):
        longest = PROBLEM + " " * (MAX_BYTES - len(PROBLEM))
        self.is_answered(validated(DOMAIN, longest), "valid 0")
        self.is_answered(validated(DOMAIN, longest + " ", "("), "F5 TooLong problem")

    def test_plans_of_sixteen_mebibytes(self):
        self.is_answered(validated(DOMAIN, PROBLEM, " " * MAX_BYTES), "valid 0")
        self.is_answered(validated(DOMAIN, PROBLEM, "(" * (MAX_BYTES + 1)), "F5 TooLong plan")

    def test_a_million_steps(self):
        full, over = "(a)" * 1_048_576, "(a)" * 1_048_577
        self.is_answered(validated(ROAD_DOMAIN, ROAD_PROBLEM, full), "no such action 1")
        self.is_answered(validated(ROAD_DOMAIN, ROAD_PROBLEM, over), "F26 PlanLimit plan")
        # A list that is no step is reported first, wherever it is.
        self.is_answered(validated(ROAD_DOMAIN, ROAD_PROBLEM, over + "()"), "F25 PlanShape plan 3145731")
