"""Texts that several test modules share: planning tasks, finite-domain tasks and certificates."""

# A step goes along a road, at cost 1.
ROAD_DOMAIN = """(define (domain road)
 (:requirements :typing)
 (:types loc)
 (:predicates (at ?x - loc) (road ?x ?y - loc))
 (:action go :parameters (?x ?y - loc)
  :precondition (and (at ?x) (road ?x ?y))
  :effect (and (not (at ?x)) (at ?y))))
"""

# From a over b to c.
ROAD_PROBLEM = """(define (problem r1) (:domain road)
 (:objects a b c - loc)
 (:init (at a) (road a b) (road b c))
 (:goal (at c)))
"""

# The roads of `ROAD_PROBLEM`, none of which ends at the goal d.
ROAD_TO_NOWHERE = ROAD_PROBLEM.replace("a b c", "a b c d").replace("(:goal (at c))", "(:goal (at d))")

# The roads of `ROAD_PROBLEM`, with the start as the goal.
ROAD_PROBLEM_AT_ITS_GOAL = """(define (problem r1) (:domain road)
 (:objects a b c - loc)
 (:init (at a) (road a b) (road b c))
 (:goal (at a)))
"""

# The roads of `ROAD_PROBLEM` without the one to the goal.
HALF_A_ROAD = """(define (problem r1) (:domain road)
 (:objects a b c - loc)
 (:init (at a) (road a b))
 (:goal (at c)))
"""

# The roads of `ROAD_PROBLEM`, with a goal that is another road, which no action adds.
ROAD_TO_BE_MADE = """(define (problem r1) (:domain road)
 (:objects a b c - loc)
 (:init (at a) (road a b) (road b c))
 (:goal (road c a)))
"""

# A step goes along a road, at the cost of the road's length.
DRIVE_DOMAIN = """(define (domain drive)
 (:requirements :typing)
 (:types loc)
 (:predicates (at ?x - loc) (road ?x ?y - loc))
 (:functions (total-cost) - number (len ?x ?y - loc) - number)
 (:action go :parameters (?x ?y - loc)
  :precondition (and (at ?x) (road ?x ?y))
  :effect (and (not (at ?x)) (at ?y) (increase (total-cost) (len ?x ?y)))))
"""

# From a to c, over b or directly.
DRIVE_PROBLEM = """(define (problem d1) (:domain drive)
 (:objects a b c - loc)
 (:init (at a) (road a b) (road b c) (road a c)
  (= (len a b) 3) (= (len b c) 4) (= (len a c) 8))
 (:goal (at c)) (:metric minimize (total-cost)))
"""

# A door is entered if it is not locked.
DOOR_DOMAIN = """(define (domain door)
 (:predicates (in) (locked ?d))
 (:action enter :parameters (?d)
  :precondition (not (locked ?d)) :effect (in)))
"""

OPEN_DOOR = "(define (problem p) (:objects d) (:init) (:goal (in)))"

LOCKED_DOOR = "(define (problem p) (:objects d) (:init (locked d)) (:goal (in)))"

# Balls are picked up and dropped in two rooms.
GRIP_DOMAIN = """(define (domain grip)
 (:predicates (room ?r) (ball ?b) (here ?r) (in ?b ?r) (free) (held ?b))
 (:action move :parameters (?f ?t)
  :precondition (and (room ?f) (room ?t) (here ?f) (not (= ?f ?t)))
  :effect (and (here ?t) (not (here ?f))))
 (:action pick :parameters (?b ?r)
  :precondition (and (ball ?b) (room ?r) (here ?r) (in ?b ?r) (free))
  :effect (and (held ?b) (not (in ?b ?r)) (not (free))))
 (:action drop :parameters (?b ?r)
  :precondition (and (ball ?b) (room ?r) (here ?r) (held ?b))
  :effect (and (in ?b ?r) (free) (not (held ?b)))))
"""

# Two balls to be carried from p to q.
GRIP_PROBLEM = """(define (problem g1) (:domain grip) (:objects p q x y)
 (:init (room p) (room q) (ball x) (ball y) (here p) (in x p) (in y p) (free))
 (:goal (and (in x q) (in y q))))
"""

# `GRIP_PROBLEM` as a finite-domain task: the room, the place of each ball, and whether the hand is free.
GRIP_SAS = (
    "begin_version\n3\nend_version\nbegin_metric\n0\nend_metric\n4\n"
    "begin_variable\nvar0\n-1\n2\nAtom here(p)\nAtom here(q)\nend_variable\n"
    "begin_variable\nvar1\n-1\n3\nAtom in(x, p)\nAtom in(x, q)\nAtom held(x)\nend_variable\n"
    "begin_variable\nvar2\n-1\n3\nAtom in(y, p)\nAtom in(y, q)\nAtom held(y)\nend_variable\n"
    "begin_variable\nvar3\n-1\n2\nAtom free()\nNegatedAtom free()\nend_variable\n"
    "3\nbegin_mutex_group\n2\n0 0\n0 1\nend_mutex_group\nbegin_mutex_group\n3\n1 0\n1 1\n1 2\nend_mutex_group\n"
    "begin_mutex_group\n3\n2 0\n2 1\n2 2\nend_mutex_group\nbegin_state\n0\n0\n0\n0\nend_state\n"
    "begin_goal\n2\n1 1\n2 1\nend_goal\n10\n"
    "begin_operator\nmove p q\n0\n1\n0 0 0 1\n1\nend_operator\n"
    "begin_operator\nmove q p\n0\n1\n0 0 1 0\n1\nend_operator\n"
    "begin_operator\npick x p\n1\n0 0\n2\n0 1 0 2\n0 3 0 1\n1\nend_operator\n"
    "begin_operator\npick x q\n1\n0 1\n2\n0 1 1 2\n0 3 0 1\n1\nend_operator\n"
    "begin_operator\npick y p\n1\n0 0\n2\n0 2 0 2\n0 3 0 1\n1\nend_operator\n"
    "begin_operator\npick y q\n1\n0 1\n2\n0 2 1 2\n0 3 0 1\n1\nend_operator\n"
    "begin_operator\ndrop x p\n1\n0 0\n2\n0 1 2 0\n0 3 -1 0\n1\nend_operator\n"
    "begin_operator\ndrop x q\n1\n0 1\n2\n0 1 2 1\n0 3 -1 0\n1\nend_operator\n"
    "begin_operator\ndrop y p\n1\n0 0\n2\n0 2 2 0\n0 3 -1 0\n1\nend_operator\n"
    "begin_operator\ndrop y q\n1\n0 1\n2\n0 2 2 1\n0 3 -1 0\n1\nend_operator\n0\n"
)

# `ROAD_PROBLEM` as Fast Downward's translator writes it, in 45 lines: one variable, whose values are the places.
ROAD_SAS = (
    "begin_version\n3\nend_version\nbegin_metric\n0\nend_metric\n1\n"
    "begin_variable\nvar0\n-1\n3\nAtom at(a)\nAtom at(b)\nAtom at(c)\nend_variable\n"
    "1\nbegin_mutex_group\n3\n0 0\n0 1\n0 2\nend_mutex_group\nbegin_state\n0\nend_state\n"
    "begin_goal\n1\n0 2\nend_goal\n2\nbegin_operator\ngo a b\n0\n1\n0 0 0 1\n1\nend_operator\n"
    "begin_operator\ngo b c\n0\n1\n0 0 1 2\n1\nend_operator\n0\n"
)

# Every plan of `ROAD_SAS` costs at least 2: a search that closed a and b, without a heuristic.
ROAD_CERTIFICATE = "optplan-cert 1\nsas\nbound 2\ncolumns 0\nclosed 2\n0 0\n1 1\nend\n"

# The roads of `DRIVE_PROBLEM`, of which the one from b to c has no length.
DRIVE_PROBLEM_WITHOUT_A_LENGTH = """(define (problem d1) (:domain drive)
 (:objects a b c - loc)
 (:init (at a) (road a b) (road b c) (road a c)
  (= (len a b) 3) (= (len a c) 8))
 (:goal (at c)) (:metric minimize (total-cost)))
"""


def noop_domain(increases):
    """Returns a domain in upper case, whose one action adds (p) and has these increases. Its name is at byte 72, and
    the first number at byte 132, counted from 0."""
    return ("(DEFINE (DOMAIN N) (:PREDICATES (P)) (:FUNCTIONS (TOTAL-COST)) "
            f"(:ACTION NOOP :PARAMETERS () :EFFECT (AND (P) {increases})))\n")


# The goal is (p), at the least total cost.
NOOP_PROBLEM = "(define (problem n1) (:domain other) (:init) (:goal (P)) (:metric minimize (total-cost))) ; end"
