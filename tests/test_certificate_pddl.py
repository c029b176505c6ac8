"""Checks of certificates for planning tasks, and translations, worked out by hand. In the texts of certificates and
translations here, `|` is a line feed.
"""

from program import Outcome, ProgramTest, checked, example, translated, validated
from texts import (DOOR_DOMAIN, DRIVE_DOMAIN, DRIVE_PROBLEM, GRIP_DOMAIN, GRIP_PROBLEM, GRIP_SAS, ROAD_DOMAIN,
                   ROAD_PROBLEM, ROAD_PROBLEM_AT_ITS_GOAL)


def with_line_feeds(text):
    """Returns a text with a line feed in place of each `|`, and one at its end."""
    return text.replace("|", "\n") + "\n"


class PlanningTest(ProgramTest):
    """Tests over the texts of a domain, a problem, and a certificate or a translation."""

    def answers(self, domain, problem, certificate, answer):
        """Fails, and shows the texts, unless the certificate's check has this answer."""
        self.is_answered(checked(domain, problem, with_line_feeds(certificate)), answer, problem=problem, certificate=certificate)

    def translates(self, domain, problem, text):
        """Fails, and shows the problem, unless this is the task's translation."""
        with self.subTest(problem=problem):
            self.assertEqual(translated(domain, problem), Outcome(out=with_line_feeds(text).encode()))


class Lamp(PlanningTest):
    """Somebody is at a, a lamp is lit there, and a road goes to b: it takes two steps to be at b with the lamp off. The
    places are a group, the road is a constant atom, and the lamp a negative goal."""

    HEAD = "optplan-cert 1|pddl|bound {}|atoms 4|at a|at b|lit a|road a b"
    VARIABLES = "vars 2|0 2 0 1|1 1 2"
    CLOSED = "columns 0|closed 3|0 0 0|1 0 1|1 1 0|end"
    TABLES = "columns 1|column 2|table 1 0|shares 1 0 1|values 2 1 0|table 1 1|shares 1 1 1|values 2 1 0|closed 0|end"

    # The bound, the text after the atoms, and the answer.
    ROWS = [
        (2, f"{VARIABLES}|{CLOSED}", "accepted 2"),
        (3, f"{VARIABLES}|{CLOSED}", "rejected C8 state 1 op 0"),
        (2, f"{VARIABLES}|{TABLES}", "accepted 2"),
        (3, f"{VARIABLES}|{TABLES}", "rejected C6"),
        # The lamp has no value for `none`; the places have one, which is allowed; the lamp shares their variable, and
        # is a negative goal; the road is in a variable.
        (2, f"vars 2|0 2 0 1|0 1 2|{CLOSED}", "rejected C2 var 1"),
        (2, f"vars 2|1 2 0 1|1 1 2|{CLOSED}", "accepted 2"),
        (2, "vars 1|1 3 0 1 2|columns 0|closed 1|0 0|end", "rejected C2 var 0"),
        (2, f"vars 3|0 2 0 1|1 1 2|1 1 3|{CLOSED}", "rejected C2 var 2"),
        # Without the state after the step along the road.
        (2, f"{VARIABLES}|columns 0|closed 2|0 0 0|1 0 1|end", "rejected C8 state 0 op 0"),
    ]

    def test_certificates(self):
        domain, problem = example("lamp", "domain.pddl"), example("lamp", "problem.pddl")
        for bound, rest, answer in self.ROWS:
            self.answers(domain, problem, f"{self.HEAD.format(bound)}|{rest}", answer)

    def test_certificates_in_files(self):
        domain, problem = example("lamp", "domain.pddl"), example("lamp", "problem.pddl")
        for name in ("closed.cert", "tables.cert"):
            self.is_answered(checked(domain, problem, example("lamp", name)), "accepted 2", name=name)
        self.is_answered(validated(domain, problem, example("lamp", "plan.txt")), "valid 2")


class Road(PlanningTest):
    """A road from a by b to c."""

    # The goal is a road from c to a.
    BACKWARDS = """(define (problem r1) (:domain road)
 (:objects a b c - loc)
 (:init (at a) (road a b) (road b c))
 (:goal (road c a)))
"""

    # At a and at b.
    TWICE = """(define (problem r1) (:domain road)
 (:objects a b c - loc)
 (:init (at a) (at b) (road a b) (road b c))
 (:goal (at c)))
"""

    # A road from a to a.
    STANDING = """(define (problem r1) (:domain road)
 (:objects a - loc)
 (:init (at a) (road a a))
 (:goal (at a)))
"""

    # Without the road from b to c.
    BROKEN = """(define (problem r1) (:domain road)
 (:objects a b c - loc)
 (:init (at a) (road a b))
 (:goal (at c)))
"""

    # Parts of most certificates: the atoms, the variable of the three places, and the closed states before the goal.
    ATOMS = "atoms 5|at a|at b|at c|road a b|road b c"
    PLACES = "vars 1|0 3 0 1 2"
    CLOSED = "columns 0|closed 2|0 0|1 1|end"

    # The closed states if there are two variables.
    CLOSED_OF_TWO = "columns 0|closed 2|0 0 1|1 1 1|end"

    ROWS = [
        (f"optplan-cert 1|pddl|bound 2|{ATOMS}|{PLACES}|{CLOSED}", "accepted 2"),
        (f"optplan-cert 1|pddl|bound 3|{ATOMS}|{PLACES}|{CLOSED}", "rejected C8 state 1 op 1"),
        # A table in place of the closed list.
        (f"optplan-cert 1|pddl|bound 2|{ATOMS}|{PLACES}|columns 1|column 1|table 1 0|shares 2 0 1 1 1|values 3 2 1 0|closed 0|end",
         "accepted 2"),
        (f"optplan-cert 1|pddl|bound 3|{ATOMS}|{PLACES}|columns 1|column 1|table 1 0|shares 2 0 1 1 1|values 3 2 1 0|closed 0|end",
         "rejected C6"),
        (f"optplan-cert 1|pddl|bound 2|{ATOMS}|{PLACES}|columns 1|column 1|table 1 0|shares 2 0 1 1 2|values 3 2 1 0|closed 0|end",
         "rejected C3 column 0 op 1"),
        (f"optplan-cert 1|pddl|bound 2|{ATOMS}|{PLACES}|columns 1|column 1|table 1 0|shares 2 0 1 1 1|values 3 3 1 0|closed 0|end",
         "rejected C4 column 0 table 0 state 0 op 0"),
        (f"optplan-cert 1|pddl|bound 2|{ATOMS}|{PLACES}|columns 2|column 1|table 1 0|shares 2 0 1 1 1|values 3 2 1 0|"
         "column 1|table 1 0|shares 0|values 3 0 0 0|closed 0|end", "accepted 2"),
        (f"optplan-cert 1|pddl|bound 2|{ATOMS}|{PLACES}|columns 1|column 1|table 1 1|shares 2 0 1 1 1|values 3 2 1 0|closed 0|end",
         "rejected C4 column 0 table 0"),
        # The same costs twice in one column.
        (f"optplan-cert 1|pddl|bound 2|{ATOMS}|{PLACES}|columns 1|column 2|table 1 0|shares 2 0 1 1 1|values 3 2 1 0|"
         "table 1 0|shares 2 0 1 1 1|values 3 2 1 0|closed 0|end", "rejected C3 column 0 op 0"),
        # Atoms: one is missing, one is listed twice, one is not of the task, one is in upper case.
        (f"optplan-cert 1|pddl|bound 2|atoms 4|at a|at b|road a b|road b c|vars 1|0 2 0 1|{CLOSED}", "rejected C1 atom (at c)"),
        (f"optplan-cert 1|pddl|bound 2|atoms 4|at a|at c|road a b|road b c|vars 1|0 2 0 1|{CLOSED}", "rejected C1 atom (at b)"),
        (f"optplan-cert 1|pddl|bound 2|atoms 4|at a|at b|at c|road a b|{PLACES}|{CLOSED}", "rejected C1 atom (road b c)"),
        (f"optplan-cert 1|pddl|bound 2|atoms 6|at a|at b|at c|road a b|road b c|at b|{PLACES}|{CLOSED}", "rejected C1 atom (at b)"),
        (f"optplan-cert 1|pddl|bound 2|atoms 5|at a|at b|at c|road a b|road b|{PLACES}|{CLOSED}", "rejected C1 atom (road b)"),
        (f"optplan-cert 1|pddl|bound 2|atoms 5|AT a|at b|at c|road a b|road b c|{PLACES}|{CLOSED}", "rejected C1 atom (AT a)"),
        (f"optplan-cert 1|pddl|bound 2|atoms 5|at a|at b|at x|road a b|road b c|{PLACES}|{CLOSED}", "rejected C1 atom (at x)"),
        # Variables: two of which the second has a single atom; without the none value the first can be left; one atom
        # is in none; one is in two; a constant one is in one.
        (f"optplan-cert 1|pddl|bound 2|{ATOMS}|vars 2|1 2 0 1|1 1 2|{CLOSED_OF_TWO}", "accepted 2"),
        (f"optplan-cert 1|pddl|bound 2|{ATOMS}|vars 2|0 2 0 1|1 1 2|{CLOSED_OF_TWO}", "rejected C2 var 0"),
        (f"optplan-cert 1|pddl|bound 2|{ATOMS}|vars 2|1 2 0 1|0 1 2|{CLOSED_OF_TWO}", "rejected C2 var 1"),
        (f"optplan-cert 1|pddl|bound 2|{ATOMS}|vars 1|1 2 0 1|{CLOSED}", "rejected C2 atom (at c)"),
        (f"optplan-cert 1|pddl|bound 2|{ATOMS}|vars 2|0 3 0 1 2|1 1 2|{CLOSED}", "rejected C2 var 1"),
        (f"optplan-cert 1|pddl|bound 2|{ATOMS}|vars 2|0 3 0 1 2|1 1 3|{CLOSED}", "rejected C2 var 1"),
        # A certificate for a finite-domain task.
        (f"optplan-cert 1|sas|bound 2|{CLOSED}", "F51 Expected cert 2"),
        (f"optplan-cert 1|pddl|bound 2|{ATOMS}|{PLACES}|columns 0|closed 2|0 0|1 1", "F53 Truncated cert"),
    ]

    # For other problems, each with a certificate and its answer.
    PROBLEM_ROWS = [
        (ROAD_PROBLEM_AT_ITS_GOAL, f"optplan-cert 1|pddl|bound 0|{ATOMS}|{PLACES}|columns 0|closed 0|end", "accepted 0"),
        (BROKEN, f"optplan-cert 1|pddl|bound inf|atoms 4|at a|at b|at c|road a b|{PLACES}|{CLOSED}", "accepted unsolvable"),
        (BACKWARDS, "optplan-cert 1|pddl|bound inf|atoms 6|at a|at b|at c|road a b|road b c|road c a|vars 2|0 3 0 1 2|1 1 5|"
         "columns 0|closed 3|0 0 1|1 1 1|2 2 1|end", "accepted unsolvable"),
        (BACKWARDS, "optplan-cert 1|pddl|bound inf|atoms 6|at a|at b|at c|road a b|road b c|road c a|vars 2|0 3 0 1 2|1 1 5|"
         "columns 1|column 1|table 1 1|shares 0|values 2 0 inf|closed 0|end", "accepted unsolvable"),
        (TWICE, f"optplan-cert 1|pddl|bound 2|{ATOMS}|{PLACES}|{CLOSED}", "rejected C2 var 0"),
        (STANDING, "optplan-cert 1|pddl|bound 0|atoms 2|at a|road a a|vars 0|columns 0|closed 0|end", "accepted 0"),
    ]

    def test_translations(self):
        self.translates(
            ROAD_DOMAIN, ROAD_PROBLEM,
            "begin_version|3|end_version|begin_metric|0|end_metric|1|begin_variable|var0|-1|3|Atom at(a)|Atom at(b)|Atom at(c)|"
            "end_variable|1|begin_mutex_group|3|0 0|0 1|0 2|end_mutex_group|begin_state|0|end_state|begin_goal|1|0 2|end_goal|2|"
            "begin_operator|go a b|0|1|0 0 0 1|1|end_operator|begin_operator|go b c|0|1|0 0 1 2|1|end_operator|0")
        # The goal is an atom that no action adds; a third road goes from c to a.
        self.translates(
            ROAD_DOMAIN, self.BACKWARDS,
            "begin_version|3|end_version|begin_metric|0|end_metric|2|begin_variable|var0|-1|3|Atom at(a)|Atom at(b)|Atom at(c)|"
            "end_variable|begin_variable|var1|-1|2|Atom road(c, a)|NegatedAtom road(c, a)|end_variable|"
            "1|begin_mutex_group|3|0 0|0 1|0 2|end_mutex_group|begin_state|0|1|end_state|begin_goal|1|1 0|end_goal|3|"
            "begin_operator|go a b|0|1|0 0 0 1|1|end_operator|begin_operator|go b c|0|1|0 0 1 2|1|end_operator|"
            "begin_operator|go c a|1|1 0|1|0 0 2 0|1|end_operator|0")
        # With two places at once there is no group.
        self.translates(
            ROAD_DOMAIN, self.TWICE,
            "begin_version|3|end_version|begin_metric|0|end_metric|3|begin_variable|var0|-1|2|Atom at(a)|NegatedAtom at(a)|"
            "end_variable|begin_variable|var1|-1|2|Atom at(b)|NegatedAtom at(b)|end_variable|begin_variable|var2|-1|2|Atom at(c)|"
            "NegatedAtom at(c)|end_variable|0|begin_state|0|0|1|end_state|begin_goal|1|2 0|end_goal|2|"
            "begin_operator|go a b|0|2|0 0 0 1|0 1 -1 0|1|end_operator|begin_operator|go b c|0|2|0 1 0 1|0 2 -1 0|1|end_operator|0")
        # The only atom that is not constant always holds.
        self.translates(
            ROAD_DOMAIN, self.STANDING,
            "begin_version|3|end_version|begin_metric|0|end_metric|0|0|begin_state|end_state|begin_goal|0|end_goal|1|"
            "begin_operator|go a a|0|0|1|end_operator|0")

    def test_certificates(self):
        for certificate, answer in self.ROWS:
            self.answers(ROAD_DOMAIN, ROAD_PROBLEM, certificate, answer)
        for problem, certificate, answer in self.PROBLEM_ROWS:
            self.answers(ROAD_DOMAIN, problem, certificate, answer)
        self.answers("(define (domain x", ROAD_PROBLEM, "optplan-cert 2", "F2 Unclosed domain 8")

    def test_fronts(self):
        cert = example("road", "planning.cert")
        for end in range(len(cert)):
            self.is_answered(checked(ROAD_DOMAIN, ROAD_PROBLEM, cert[:end]), "F53 Truncated cert", end=end)


class SmallTasks(PlanningTest):
    """Small tasks: a door, lengths of roads, actions that contradict themselves, and negated goals."""

    OPEN_DOOR = "(define (problem p) (:objects d) (:init) (:goal (in)))"

    LOCKED_DOOR = "(define (problem p) (:objects d) (:init (locked d)) (:goal (in)))"

    # Switches a lamp on and off; one action contradicts itself, one costs nothing.
    LAMP_DOMAIN = """(define (domain lamp) (:predicates (on) (off) (dark)) (:functions (total-cost) - number)
 (:action press :precondition (off) :effect (and (on) (not (off)) (increase (total-cost) 2)))
 (:action release :precondition (on) :effect (and (off) (not (on))))
 (:action never :precondition (and (on) (not (on))) :effect (dark)))
"""

    # The goal: the lamp is on, and it is not dark.
    LAMP_PROBLEM = "(define (problem lamp) (:init (off)) (:goal (and (on) (not (dark)))) (:metric minimize (total-cost)))"

    def test_doors(self):
        self.translates(
            DOOR_DOMAIN, self.OPEN_DOOR,
            "begin_version|3|end_version|begin_metric|0|end_metric|1|begin_variable|var0|-1|2|Atom in()|NegatedAtom in()|"
            "end_variable|0|begin_state|1|end_state|begin_goal|1|0 0|end_goal|1|begin_operator|enter d|0|1|0 0 -1 0|1|end_operator|0")
        self.translates(
            DOOR_DOMAIN, self.LOCKED_DOOR,
            "begin_version|3|end_version|begin_metric|0|end_metric|2|begin_variable|var0|-1|2|Atom in()|NegatedAtom in()|"
            "end_variable|begin_variable|var1|-1|2|Atom locked(d)|NegatedAtom locked(d)|end_variable|0|begin_state|1|0|end_state|"
            "begin_goal|1|0 0|end_goal|1|begin_operator|enter d|1|1 1|1|0 0 -1 0|1|end_operator|0")
        self.answers(
            DOOR_DOMAIN, self.OPEN_DOOR,
            "optplan-cert 1|pddl|bound 1|atoms 1|in|vars 1|1 1 0|columns 0|closed 1|0 1|end", "accepted 1")
        self.answers(
            DOOR_DOMAIN, self.LOCKED_DOOR,
            "optplan-cert 1|pddl|bound inf|atoms 2|in|locked d|vars 2|1 1 0|1 1 1|columns 0|closed 1|0 1 0|end", "accepted unsolvable")
        # Used negatively, the lock is in no variable of several atoms, and it is not constant.
        self.answers(
            DOOR_DOMAIN, self.LOCKED_DOOR,
            "optplan-cert 1|pddl|bound inf|atoms 2|in|locked d|vars 1|1 2 0 1|columns 0|closed 1|0 1|end", "rejected C2 var 0")
        self.answers(
            DOOR_DOMAIN, self.LOCKED_DOOR,
            "optplan-cert 1|pddl|bound inf|atoms 2|in|locked d|vars 1|1 1 0|columns 0|closed 1|0 1|end", "rejected C2 atom (locked d)")

    def test_lengths(self):
        self.translates(
            DRIVE_DOMAIN, DRIVE_PROBLEM,
            "begin_version|3|end_version|begin_metric|1|end_metric|1|begin_variable|var0|-1|3|Atom at(a)|Atom at(b)|Atom at(c)|"
            "end_variable|1|begin_mutex_group|3|0 0|0 1|0 2|end_mutex_group|begin_state|0|end_state|begin_goal|1|0 2|end_goal|3|"
            "begin_operator|go a b|0|1|0 0 0 1|3|end_operator|begin_operator|go a c|0|1|0 0 0 2|8|end_operator|"
            "begin_operator|go b c|0|1|0 0 1 2|4|end_operator|0")
        self.answers(
            DRIVE_DOMAIN, DRIVE_PROBLEM,
            "optplan-cert 1|pddl|bound 7|atoms 6|at a|at b|at c|road a b|road a c|road b c|vars 1|0 3 0 1 2|"
            "columns 0|closed 2|0 0|3 1|end", "accepted 7")
        self.answers(
            DRIVE_DOMAIN, DRIVE_PROBLEM,
            "optplan-cert 1|pddl|bound 8|atoms 6|at a|at b|at c|road a b|road a c|road b c|vars 1|0 3 0 1 2|"
            "columns 0|closed 2|0 0|3 1|end", "rejected C8 state 1 op 2")

    def test_lamps(self):
        # `on` is used negatively by the action that contradicts itself, so it has a variable of its own.
        self.translates(
            self.LAMP_DOMAIN, self.LAMP_PROBLEM,
            "begin_version|3|end_version|begin_metric|1|end_metric|3|begin_variable|var0|-1|2|Atom on()|NegatedAtom on()|"
            "end_variable|begin_variable|var1|-1|2|Atom off()|NegatedAtom off()|end_variable|"
            "begin_variable|var2|-1|2|Atom dark()|NegatedAtom dark()|end_variable|0|begin_state|1|0|1|end_state|"
            "begin_goal|2|0 0|2 1|end_goal|2|begin_operator|press|0|2|0 0 -1 0|0 1 0 1|2|end_operator|"
            "begin_operator|release|0|2|0 0 0 1|0 1 -1 0|0|end_operator|0")
        self.answers(
            self.LAMP_DOMAIN, self.LAMP_PROBLEM,
            "optplan-cert 1|pddl|bound 2|atoms 3|on|off|dark|vars 3|1 1 0|1 1 1|1 1 2|columns 0|closed 1|0 1 0 1|end", "accepted 2")
        # `dark` is added by a listed action, although that never applies.
        self.answers(
            self.LAMP_DOMAIN, self.LAMP_PROBLEM,
            "optplan-cert 1|pddl|bound 2|atoms 2|on|off|vars 2|1 1 0|1 1 1|columns 0|closed 1|0 1 0|end", "rejected C1 atom (dark)")


class Gripper(PlanningTest):
    """A gripper with one hand, which carries two balls from one room to another."""

    def test_translation(self):
        self.assertEqual(translated(GRIP_DOMAIN, GRIP_PROBLEM), Outcome(out=GRIP_SAS.encode()))


class Proposals(PlanningTest):
    """Only the first 4,096 candidates of mutex groups are tried. With thirty predicates of one object there are 30
    candidates of one part, then 435 of two, then those of three, in order: candidate 4,096 is that of predicates 16, 19
    and 20, and the next one is that of 16, 19 and 21."""

    PREDICATES = range(1, 31)

    def action(self, turns, predicate):
        """Returns an action that makes the predicate false, and the next one true if it is one of those that take
        turns."""
        effect = f"(not (p{predicate} ?x))"
        if predicate in turns:
            following = turns[(turns.index(predicate) + 1) % len(turns)]
            effect = f"(and {effect} (p{following} ?x))"
        return f" (:action a{predicate} :parameters (?x) :precondition (p{predicate} ?x) :effect {effect})"

    def domain(self, turns):
        """Returns the domain of thirty predicates: three take turns, and each of the others is only made false."""
        predicates = "".join(f" (p{predicate} ?x)" for predicate in self.PREDICATES)
        actions = "".join(self.action(turns, predicate) for predicate in self.PREDICATES)
        return f"(define (domain turns) (:predicates{predicates}){actions})"

    def problem(self, turns):
        """Returns the problem: at first all predicates hold but the second and the third of those that take turns."""
        _, second, third = turns
        initial = "".join(f" (p{predicate} o)" for predicate in self.PREDICATES if predicate not in (second, third))
        return f"(define (problem turns) (:domain turns) (:objects o) (:init{initial}) (:goal (p{third} o)))"

    def has_variables(self, turns, count):
        """Fails, and shows the turns, unless the translation has `count` variables."""
        head = f"begin_version\n3\nend_version\nbegin_metric\n0\nend_metric\n{count}\nbegin_variable\n".encode()
        with self.subTest(turns=turns):
            self.assertEqual(translated(self.domain(turns), self.problem(turns)).out[:len(head)], head)

    def test_first_four_thousand_and_ninety_six_candidates(self):
        # The three atoms share a variable, and each other atom has one of its own.
        self.has_variables((16, 19, 20), 28)
        self.has_variables((16, 19, 21), 30)
