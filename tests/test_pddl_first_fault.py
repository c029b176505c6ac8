"""The first fault of texts with several faults."""

from program import ProgramTest, validated

SECTION_ROWS = [
    # Faults of the heads of all sections are reported before those of their contents.
    ("(define (domain x) (:types - a) (:foo))", "F11 Unsupported :foo domain 33"),
    # The order of sections is fixed, whatever their order in the text.
    ("(define (domain x) (:types - a) (:requirements x))", "F10 Shape domain 47"),
    ("(define (domain x) (:constants a - no) (:types - a))", "F10 Shape domain 47"),
    ("(define (domain x) (:predicates ()) (:constants a - no))", "F12 UnknownName domain 52"),
    ("(define (domain x) (:functions ()) (:predicates ()))", "F10 Shape domain 48"),
    ("(define (domain x) (:action) (:functions ()))", "F10 Shape domain 41"),
    ("(define (domain x) (:predicates (p ?x - no)) (:types a - a))", "F15 TypeCycle domain 53"),
    # Within a section the first place is reported, not the least number of a fault.
    ("(define (domain x) (:types a - a - b))", "F15 TypeCycle domain 27"),
    ("(define (domain x) (:types b - ?c a - a))", "F10 Shape domain 31"),
    ("(define (domain x) (:action a :effect (p)) (:action))", "F12 UnknownName domain 39"),
    ("(define (domain x) (:action) (:action a :effect (p)))", "F10 Shape domain 19"),
    ("(define (domain x) (:foo) (:bar) ())", "F11 Unsupported :foo domain 20"),
]

PROBLEM_ROWS = [
    # Any fault of the domain is reported before those of the problem.
    ("(define (domain x) (:action))", "(", "F10 Shape domain 19"),
    ("(", "", "F2 Unclosed domain 0"),
    ("(define (domain x))", "(define (problem x) (:goal (q)) (:objects ?x)", "F2 Unclosed problem 0"),
    ("(define (domain x) (:predicates))", "(define (problem x) (:goal (q)) (:objects ?x))", "F10 Shape problem 42"),
    ("(define (domain x))", "(define (problem x) (:objects ?x) (:goal (q)) (:foo))", "F11 Unsupported :foo problem 47"),
    ("(define (domain x))", "(define (problem x) (:init (q)) (:objects a - no) (:goal ()))", "F12 UnknownName problem 46"),
    ("(define (domain x))", "(define (problem x) (:goal (q)) (:init (r)))", "F12 UnknownName problem 40"),
    ("(define (domain x))", "(define (problem x) (:metric) (:goal (q)))", "F12 UnknownName problem 38"),
    # Sums of costs are tested last, and only with the metric.
    ("(define (domain x)\n"
     " (:action b :effect (and (increase (total-cost) 2147483647) (increase (total-cost) 1))))",
     "(define (problem x) (:metric maximize (total-cost)) (:goal ()))",
     "F11 Unsupported maximize problem 29"),
]

GOOD_PROBLEM = "(define (problem p) (:goal ()))"

PLAN_ROWS = [
    ("(define (problem p) (:goal (q)))", "(", "F12 UnknownName problem 28"),
    (GOOD_PROBLEM, "() )", "F3 StrayClose plan 3"),
    (GOOD_PROBLEM, "a (b", "F2 Unclosed plan 2"),
    (GOOD_PROBLEM, "(a) b ()", "F25 PlanShape plan 4"),
    # A step of no action is no fault of the plan's text.
    (GOOD_PROBLEM, "(a) ()", "F25 PlanShape plan 4"),
]


class Order(ProgramTest):
    def test_sections_have_their_turns(self):
        self.domains_are_answered(SECTION_ROWS)

    def test_the_domain_goes_before_the_problem(self):
        self.problems_are_answered(PROBLEM_ROWS)

    def test_the_problem_goes_before_the_plan(self):
        self.plans_are_answered("(define (domain x))", PLAN_ROWS)

    def test_sums_of_costs_go_before_the_plan(self):
        domain = ("(define (domain x)\n"
                  " (:action b :effect (and (increase (total-cost) 2147483647) (increase (total-cost) 1))))")
        problem = "(define (problem x) (:metric minimize (total-cost)) (:goal ()))"
        self.is_answered(validated(domain, problem, "("), "F17 CostRange domain 29")
