"""The sections of a domain and of a problem one at a time: the first fault of each, and the cost of a plan if there is
none."""

import re

from program import ProgramTest, validated

NO_PROBLEM = "(define (problem p) (:goal ()))"
NAMES = {"Shape": "F10", "Unsupported": "F11", "UnknownName": "F12", "Arity": "F13", "TwiceDeclared": "F14", "TypeCycle": "F15",
         "NotWhole": "F16", "CostRange": "F17", "Limit": "F18", "GoalBothWays": "F19"}


def fault_answer(kind, text, place, file):
    """Returns the answer for a fault at a place of a file's text: F11 names the word there, F18 the table."""
    name, _, table = kind.partition(" ")
    words = [NAMES[name], name]
    if name == "Unsupported":
        words.append(re.match(r"[^\s()]+", text[place:])[0])
    elif table:
        words.append(table)
    return " ".join([*words, file, str(place)])


class SectionTest(ProgramTest):
    """Rows of a section's text, the kind of its first fault or None, and the fault's place, a byte of the section
    counted from 0."""

    def domain_sections(self, rows, before="(define (domain x) ", after=")"):
        """Fails for each row with another answer. The section is in a domain, between these texts."""
        for section, *fault in rows:
            domain = before + section + after
            answer = fault_answer(fault[0], domain, fault[1] + len(before), "domain") if fault[0] else "valid 0"
            self.is_answered(validated(domain, NO_PROBLEM), answer, section=section)

    def problem_sections(self, domain, rows, before="(define (problem x) ", after=")"):
        """Fails for each row with another answer. The section is in a problem, between these texts."""
        for section, *fault in rows:
            problem = before + section + after
            answer = fault_answer(fault[0], problem, fault[1] + len(before), "problem") if fault[0] else "valid 0"
            self.is_answered(validated(domain, problem), answer, section=section)


class DomainSections(SectionTest):
    """Types, objects, predicates and functions."""

    def test_types(self):
        self.domain_sections([
            ("(:types)", None),
            ("(:types a b - c d)", None),
            ("(:types a - t a - t)", None),
            ("(:types a - b a - c c - a)", "TwiceDeclared", 14),
            ("(:types - a)", "Shape", 8),
            ("(:types a - b - c)", "Shape", 14),
            ("(:types a - (either b c))", "Unsupported", 13),
            ("(:types a - either)", "Unsupported", 12),
            ("(:types a - (b))", "Shape", 12),
            ("(:types a - b a - (b))", "Shape", 18),
            ("(:types (x) a -)", "Shape", 0),
            ("(:types ())", "Shape", 8),
        ])

    def test_cycles_of_types(self):
        self.domain_sections([
            ("(:types object a - object)", None),
            ("(:types a - object object)", None),
            ("(:types a - b b - a)", "TypeCycle", 8),
            ("(:types c - a a - b b - a)", "TypeCycle", 14),
            ("(:types a - a)", "TypeCycle", 8),
            ("(:types a - object object - a)", "TypeCycle", 8),
            ("(:types object - a)", "TypeCycle", 8),
        ])

    def test_objects(self):
        for constants, rows in [
            ("(:constants)", [
                ("(:objects a b - t c)", None),
                ("(:objects a - t b a - t)", None),
                ("(:objects a - t a)", "TwiceDeclared", 16),
                ("(:objects a - t a - u a - t)", "TwiceDeclared", 16),
                ("(:objects a ?b)", "Shape", 12),
            ]),
            ("(:constants a - t)", [
                ("(:objects a b - t)", None),
                ("(:objects b - t a - u)", "TwiceDeclared", 16),
            ]),
        ]:
            domain = f"(define (domain x) (:types t u - v) {constants})"
            self.problem_sections(domain, rows, after=" (:goal ()))")

    def test_types_of_objects(self):
        self.problem_sections("(define (domain x) (:types t u - v))", [
            ("(:objects a - t a - (x) a - u)", "Shape", 20),
            ("(:objects a - no)", "UnknownName", 14),
            ("(:objects a - no a - nil)", "UnknownName", 14),
        ], after=" (:goal ()))")

    def test_most_objects(self):
        def objects(count):
            return "(:objects" + "".join(f" o{number} a" for number in range(count)) + ")"

        # The word `a` is one object, so there are 4,096 objects, and the 4,097th is o4095.
        self.problem_sections("(define (domain x))", [
            (objects(4095), None),
            (objects(4098), "Limit objects", 31660),
        ], after=" (:goal ()))")

    def test_predicates(self):
        self.domain_sections([
            ("(:predicates (p) (q ?x ?y - t) (r ?x ?y))", None),
            ("(:predicates (p ?x - no))", "UnknownName", 21),
            ("(:predicates (p ?x ?x))", "TwiceDeclared", 19),
            ("(:predicates (p) (q) (p))", "TwiceDeclared", 22),
            ("(:predicates p (q))", "Shape", 13),
            ("(:predicates ())", "Shape", 13),
            ("(:predicates ((p) x))", "Shape", 14),
            ("(:predicates (?p ?x ?x))", "Shape", 14),
            ("(:predicates (p ?x -))", "Shape", 13),
            ("(:predicates (= ?x ?x ()))", None),
        ], before="(define (domain x) (:types t u - v) ")

    def test_functions(self):
        self.domain_sections([
            ("(:functions (f) (g ?x - t) - number (h))", None),
            ("(:functions (=))", None),
            ("(:functions (f) - -)", "Unsupported", 18),
            ("(:functions (f) - either)", "Unsupported", 18),
            ("(:functions (f) - (either number))", "Unsupported", 19),
            ("(:functions (f) - (number))", "Shape", 18),
            ("(:functions (f) -)", "Shape", 0),
            ("(:functions - number)", "Shape", 12),
            ("(:functions (f) - number - number)", "Shape", 25),
            ("(:functions (f) (f))", "TwiceDeclared", 17),
            ("(:functions f)", "Shape", 12),
        ], before="(define (domain x) (:types t u - v) ")

    def test_most_predicates(self):
        def predicates(count):
            return "(:predicates" + "".join(f" (p{number})" for number in range(count)) + ")"

        self.domain_sections([
            (predicates(512), None),
            (predicates(513), "Limit predicates", 3487),
        ])


# Declarations before an action: predicates with no and two parameters, functions with no and one parameter, and a
# constant.
DECLARED = "(define (domain x) (:types t) (:constants c) (:predicates (p) (q ?x ?y)) (:functions (total-cost) (f ?x)) "


class Actions(SectionTest):
    """Actions: their keywords, conditions and effects."""

    def test_keywords(self):
        self.domain_sections([
            ("(:action)", "Shape", 0),
            ("(:action (b))", "Shape", 9),
            ("(:action b :duration ())", "Shape", 11),
            ("(:action b ())", "Shape", 11),
            ("(:action b :effect)", "Shape", 0),
            ("(:action b :parameters :effect ())", "Shape", 23),
            ("(:action b :effect () :effect ())", "TwiceDeclared", 22),
            ("(:action b) (:action b)", "TwiceDeclared", 21),
            ("(:action b :precondition () :effect (and))", None),
        ], before=DECLARED)

    def test_order_of_keywords(self):
        # The first of two lists after one keyword counts, and the parameters are read before the other parts.
        self.domain_sections([
            ("(:action b :parameters (?x) :parameters (?y) :effect (q ?x ?y))", "TwiceDeclared", 28),
            ("(:action b :effect (q ?x ?y) :parameters (?x) :parameters (?y))", "UnknownName", 25),
            ("(:action b :effect (q ?x ?x) :duration :parameters (?x))", "Shape", 29),
            ("(:action b :effect (q ?x ?x) :precondition :parameters (?x))", "UnknownName", 22),
        ], before=DECLARED)

    def test_conditions(self):
        self.domain_sections([
            ("p", "Shape", 0),
            ("(?x)", "Shape", 1),
            ("(p c)", "Arity", 0),
            ("(q c)", "Arity", 0),
            ("(r c c)", "UnknownName", 1),
            ("(q ?x d)", "UnknownName", 6),
            ("(q ?y c)", "UnknownName", 3),
            ("(q ?x (c))", "Shape", 6),
            ("(q ?x :c)", "Shape", 6),
            ("(q ?x c)", None),
            ("(when (p) (p))", "Unsupported", 1),
            ("(or (p) (p))", "Unsupported", 1),
            ("(increase (p))", "UnknownName", 1),
            ("(= c)", "Shape", 0),
            ("(= c c c)", "Shape", 7),
            ("(= (f) 3)", "Shape", 3),
            ("(not)", "Shape", 0),
            ("(not (or))", "Unsupported", 1),
            ("(not (p) (p))", "Shape", 9),
            ("(and (p) (not (= c d)))", "UnknownName", 19),
            ("(and () (p) (and (not (q ?x c))) (= ?x c) (not (= c ?x)))", None),
        ], before=DECLARED + "(:action b :parameters (?x) :precondition ", after="))")

    def test_effects(self):
        self.domain_sections([
            ("p", "Shape", 0),
            ("(= c c)", "UnknownName", 1),
            ("(not (= c c))", "UnknownName", 6),
            ("(not (increase (total-cost) 1))", "Unsupported", 1),
            ("(increase (f) 1)", "Unsupported", 1),
            ("(increase (total-cost a) 1)", "Arity", 10),
            ("(increase (total-cost))", "Shape", 0),
            ("(increase (total-cost) 1 2)", "Shape", 25),
            ("(increase (total-cost) (total-cost))", "Unsupported", 24),
            ("(increase (total-cost) 1.5)", "NotWhole", 23),
            ("(increase (total-cost) -1)", "CostRange", 23),
            ("(increase (total-cost) ?x)", "Shape", 23),
            ("(increase (total-cost) 1e3)", "UnknownName", 23),
            ("(increase total-cost f)", "Arity", 21),
            ("(and () (p) (increase total-cost 2.0) (and (not (q ?x c))) (increase (total-cost) (f ?x)))", None),
        ], before=DECLARED + "(:action b :parameters (?x) :effect ", after="))")

    def test_numbers(self):
        problem = "(define (problem x) (:goal ()) (:metric minimize (total-cost)))"
        before = "(define (domain x) (:functions (total-cost)) (:action b :effect (increase (total-cost) "
        for number, cost in [("007", 7), ("7.00", 7), ("2147483647", 2147483647)]:
            self.is_answered(validated(f"{before}{number})))", problem, "(b)"), f"valid {cost}", number=number)
        self.domain_sections([
            ("2147483648", "CostRange", 0),
            ("99999999999999999999999999", "CostRange", 0),
            ("99999999999.5", "NotWhole", 0),
            ("-0", "CostRange", 0),
            ("-1.0", "CostRange", 0),
            # A word that is no number is the name of a function.
            ("-5.5", "UnknownName", 0),
            ("1.", "UnknownName", 0),
            (".5", "UnknownName", 0),
            ("+1", "UnknownName", 0),
            ("1e3", "UnknownName", 0),
        ], before=before, after=")))")


class ProblemSections(SectionTest):
    """The initial state, the goal and the metric."""

    DOMAIN = ("(define (domain x) (:constants a) (:predicates (p) (q ?x) (at ?x) (or ?x)) (:functions (total-cost) (f) (g ?x))"
              " (:action pay :precondition (and (p) (q a)) :effect (increase (total-cost) (f)))"
              " (:action gain :effect (increase (total-cost) (g a))))")

    def initial_states(self, rows):
        self.problem_sections(self.DOMAIN, rows, after=" (:goal ()))")

    def test_initial_atoms(self):
        self.initial_states([
            ("(:init)", None),
            ("(:init (q ?x))", "UnknownName", 10),
            ("(:init (q ?))", "Shape", 10),
            ("(:init (q b))", "UnknownName", 10),
            ("(:init (q))", "Arity", 7),
            ("(:init ())", "Shape", 7),
            ("(:init p)", "Shape", 7),
            ("(:init ((p)))", "Shape", 8),
            ("(:init (:p))", "Shape", 8),
            ("(:init (zap) (q ?) (p))", "UnknownName", 8),
        ])

    def test_initial_forms(self):
        self.initial_states([
            ("(:init (and (p)))", "UnknownName", 8),
            ("(:init (or a))", "Unsupported", 8),
            ("(:init (not p))", "Unsupported", 8),
            ("(:init (not (zap)))", "UnknownName", 13),
            ("(:init (not (p)) (p))", None),
            ("(:init (not))", "Shape", 7),
            ("(:init (not (p) (p)))", "Shape", 16),
            ("(:init (at 5 (at 5)))", "Unsupported", 8),
            ("(:init (at a) (at 5 b (at 5)))", "Unsupported", 15),
            ("(:init (not (at (at 5))))", "Shape", 16),
            ("(:init (not (= a a)))", "UnknownName", 13),
        ])

    def test_initial_values(self):
        self.initial_states([
            ("(:init (p) (q a) (= (f) 3) (= (g a) 0) (= total-cost 0))", None),
            ("(:init (= (f) 007) (= f 7.00))", None),
            ("(:init (= (f) 1) (= (f) 2) (= (f) 1))", "TwiceDeclared", 17),
            ("(:init (= (total-cost a) 0))", "Arity", 10),
        ])

    def test_what_initial_values_cost(self):
        def cost(init, plan):
            return validated(self.DOMAIN, f"(define (problem x) {init} (:goal ()) (:metric minimize (total-cost)))", plan)

        values = "(:init (p) (q a) (= (f) 3) (= (g a) 0) (= total-cost 0))"
        self.is_answered(cost(values, "(pay)(gain)(pay)"), "valid 6")
        self.is_answered(cost("(:init (p) (q a) (= (f) 007) (= f 7.00))", "(pay)"), "valid 7")
        # An atom that is stated to be false and to be true is true.
        self.is_answered(cost("(:init (not (p)) (p) (q a) (= (f) 1))", "(pay)"), "valid 1")
        self.is_answered(cost("(:init (p) (= (f) 1))", "(pay)"), "not applicable 1 (q a)")
        self.is_answered(cost("(:init (p) (q a))", "(pay)"), "no such action 1")

    def test_initial_numbers(self):
        self.initial_states([
            ("(:init (= (f) +1))", "Shape", 14),
            ("(:init (= (f) -0))", "CostRange", 14),
            ("(:init (= (f) 99999999999.5))", "NotWhole", 14),
            ("(:init (= (f) 5.5))", "NotWhole", 14),
            ("(:init (= (f) 2147483648))", "CostRange", 14),
            ("(:init (= (total-cost) x))", "Shape", 23),
        ])

    def test_initial_functions(self):
        self.initial_states([
            ("(:init (= (total-cost) 7))", "Unsupported", 11),
            ("(:init (= total-cost 7))", "Unsupported", 10),
            ("(:init (=))", "Shape", 7),
            ("(:init (= f))", "Shape", 7),
            ("(:init (= f 1 2))", "Shape", 14),
            ("(:init (= () 1))", "Shape", 10),
            ("(:init (= ((f)) 1))", "Shape", 11),
            ("(:init (= (g) 1))", "Arity", 10),
            ("(:init (= (h) 1))", "UnknownName", 11),
            ("(:init (= ?f 1))", "Shape", 10),
        ])

    def goals(self, rows, before="(define (problem x) "):
        self.problem_sections(self.DOMAIN, rows, before)

    def test_goal_sections(self):
        self.goals([
            ("(:goal)", "Shape", 0),
            ("(:goal p)", "Shape", 7),
            ("(:goal (p) (q a))", "Shape", 11),
            ("(:goal ())", None),
            ("(:goal (and p))", "Shape", 12),
        ])
        self.goals([
            ("(:goal (and (p) (and (not (q a))) (at a)))", None),
            ("(:goal (and () (and) (and (and (p)))))", None),
        ], before="(define (problem x) (:init (p) (at a)) ")

    def test_what_goals_ask_for(self):
        goal = "(:goal (and (p) (and (not (q a))) (at a)))"
        for init, answer in [("(p) (at a)", "valid 0"), ("(at a)", "goal open (p)"), ("(p)", "goal open (at a)"),
                             ("(p) (q a) (at a)", "goal open (not (q a))")]:
            self.is_answered(validated(self.DOMAIN, f"(define (problem x) (:init {init}) {goal})"), answer, init=init)

    def test_goal_forms(self):
        self.goals([
            ("(:goal (= a a))", "Unsupported", 8),
            ("(:goal (or a))", "Unsupported", 8),
            ("(:goal (zap))", "UnknownName", 8),
            ("(:goal ((p)))", "Shape", 8),
            ("(:goal (and (increase) (q ?)))", "UnknownName", 13),
        ])

    def test_negated_goals(self):
        self.goals([
            ("(:goal (not p))", "Unsupported", 8),
            ("(:goal (not (and)))", "Unsupported", 8),
            ("(:goal (not))", "Shape", 7),
            ("(:goal (not (p) (p)))", "Shape", 16),
            ("(:goal (not (q)))", "Arity", 12),
            ("(:goal (not (= a a)))", "Unsupported", 13),
        ])

    def test_goals_both_ways(self):
        self.goals([
            ("(:goal (and (p) (not (p))))", "GoalBothWays", 16),
            ("(:goal (and (not (q a)) (p) (and (q a)) (not (p))))", "GoalBothWays", 33),
        ])
        self.goals([("(:goal (and (p) (p)))", None)], before="(define (problem x) (:init (p)) ")

    def test_metrics(self):
        self.problem_sections(self.DOMAIN, [
            ("(:metric minimize (total-cost))", None),
            ("(:metric minimize total-cost)", None),
            ("(:metric)", "Shape", 0),
            ("(:metric ())", "Shape", 0),
            ("(:metric (total-cost))", "Unsupported", 10),
            ("(:metric (() (total-cost)) minimize)", "Unsupported", 14),
            ("(:metric minimize (f))", "Unsupported", 9),
            ("(:metric minimize total-cost x)", "Unsupported", 9),
            ("(:metric minimize (total-cost x))", "Unsupported", 9),
            ("(:metric minimize)", "Unsupported", 9),
            ("(:metric maximize (total-cost))", "Unsupported", 9),
        ], after=" (:goal ()))")


class WholeTasks(ProgramTest):
    """The parts of both texts are read in a fixed order, whatever their order in the text."""

    NO_TYPE = "(define (domain d) (:action a :effect (q)) (:predicates (p ?x - t)))"
    NO_PREDICATE = "(define (domain d) (:action a :effect (q)))"
    COSTLY = ("(define (domain d) (:functions (total-cost)) (:action a :effect (and (increase (total-cost) 2147483647)"
              " (increase (total-cost) 1))))")
    TWO_SHAPES = "(define (domain d) (:types (a)) (:requirements x))"
    EMPTY = "(define (domain d))"
    NO_OBJECT = "(define (problem p) (:domain d) (:init (q)) (:goal (r)) (:objects (a)))"
    NO_ATOM = "(define (problem p) (:domain d) (:goal (r)) (:init (q)))"
    FREE = "(define (problem p) (:domain d) (:init) (:goal ()))"
    METRIC = "(define (problem p) (:domain d) (:init) (:goal ()) (:metric minimize (total-cost)))"
    WRONG_METRIC = "(define (problem p) (:domain d) (:init) (:goal ()) (:metric maximize (total-cost)))"

    def test_first_faults(self):
        for domain, problem, answer in [
            ("(define (domain d)", ")", "F2 Unclosed domain 0"),
            (self.NO_PREDICATE, ")", "F12 UnknownName domain 39"),
            (self.TWO_SHAPES, self.FREE, "F10 Shape domain 47"),
            (self.NO_TYPE, self.FREE, "F12 UnknownName domain 64"),
            (self.COSTLY, self.METRIC, "F17 CostRange domain 54"),
            (self.EMPTY, ")", "F3 StrayClose problem 0"),
            (self.EMPTY, self.NO_OBJECT, "F10 Shape problem 66"),
            (self.EMPTY, self.NO_ATOM, "F12 UnknownName problem 52"),
            (self.COSTLY, self.WRONG_METRIC, "F11 Unsupported maximize problem 60"),
        ]:
            self.is_answered(validated(domain, problem), answer, domain=domain, problem=problem)

    def test_no_sum_is_at_fault_without_the_metric(self):
        self.is_answered(validated(self.COSTLY, self.FREE), "valid 0")

    def test_a_whole_task(self):
        domain = ("(define (domain drive) (:requirements :typing) (:types loc) (:constants home - loc)\n"
                  " (:predicates (at ?x - loc) (road ?x ?y - loc))\n"
                  " (:functions (total-cost) - number (len ?x ?y - loc) - number)\n"
                  " (:action go :parameters (?x ?y - loc)\n"
                  "  :precondition (and (at ?x) (road ?x ?y))\n"
                  "  :effect (and (not (at ?x)) (at ?y) (increase (total-cost) (len ?x ?y)))))")
        problem = ("(define (problem trip) (:domain drive) (:objects a b - loc)\n"
                   " (:init (at home) (road home a) (= (len home a) 5) (= (total-cost) 0) (not (at b)))\n"
                   " (:goal (and (at a) (not (at home)))) (:metric minimize (total-cost)))")
        for plan, answer in [("(go home a)", "valid 5"), ("", "goal open (at a)"), ("(go home b)", "no such action 1"),
                             ("(go a home)", "no such action 1")]:
            self.is_answered(validated(domain, problem, plan), answer, plan=plan)
