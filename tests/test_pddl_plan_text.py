"""Plan texts: what is a step, and what is refused."""

from program import ProgramTest
from texts import ROAD_DOMAIN, ROAD_PROBLEM

ROWS = [
    (ROAD_PROBLEM, "go a b", "F25 PlanShape plan 0"),
    (ROAD_PROBLEM, "()", "F25 PlanShape plan 0"),
    (ROAD_PROBLEM, "(())", "F25 PlanShape plan 1"),
    (ROAD_PROBLEM, "(go (a) b)", "F25 PlanShape plan 4"),
    (ROAD_PROBLEM, "(go a b) 0.5", "F25 PlanShape plan 9"),
    (ROAD_PROBLEM, "0: (go a b)", "F25 PlanShape plan 0"),
    (ROAD_PROBLEM, "(go a b)() go", "F25 PlanShape plan 8"),
    # Any word is a step's name, and a name with other words than objects is no action.
    (ROAD_PROBLEM, "(?x a)", "no such action 1"),
    (ROAD_PROBLEM, "(-)", "no such action 1"),
    (ROAD_PROBLEM, "(:go a b)", "no such action 1"),
    (ROAD_PROBLEM, "(go a ?y)", "no such action 1"),
    # Comments, blanks and case do not matter.
    (ROAD_PROBLEM,
     "; two steps\n"
     "\t( go\r\n"
     " A ; from\n"
     " b)(GO b c)",
     "valid 2"),
    (ROAD_PROBLEM, "; (go a b)(go b c)", "goal open (at c)"),
]

NESTED_ROWS = [
    ("(define (problem p) (:goal ()))", "(a (b))", "F25 PlanShape plan 3"),
    ("(define (problem p) (:goal ()))", "(?x a)", "no such action 1"),
]


class PlanTexts(ProgramTest):
    def test_texts_of_plans(self):
        self.plans_are_answered(ROAD_DOMAIN, ROWS)

    def test_plans_where_there_is_no_action(self):
        self.plans_are_answered("(define (domain x))", NESTED_ROWS)
