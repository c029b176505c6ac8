"""A robot with two hands brings balls from one room to another."""

from planning import PlannerTest

DOMAIN = """(define (domain gripper)
 (:requirements :strips :typing)
 (:types room ball hand)
 (:predicates (robot ?r - room) (at ?b - ball ?r - room) (free ?h - hand) (holds ?h - hand ?b - ball))
 (:action move :parameters (?from ?to - room)
  :precondition (robot ?from)
  :effect (and (not (robot ?from)) (robot ?to)))
 (:action pick :parameters (?b - ball ?r - room ?h - hand)
  :precondition (and (robot ?r) (at ?b ?r) (free ?h))
  :effect (and (holds ?h ?b) (not (at ?b ?r)) (not (free ?h))))
 (:action drop :parameters (?b - ball ?r - room ?h - hand)
  :precondition (and (robot ?r) (holds ?h ?b))
  :effect (and (at ?b ?r) (free ?h) (not (holds ?h ?b)))))
"""

ONE_BALL = """(define (problem one) (:domain gripper)
 (:objects p q - room x - ball left right - hand)
 (:init (robot p) (at x p) (free left) (free right))
 (:goal (at x q)))
"""

TWO_BALLS = """(define (problem two) (:domain gripper)
 (:objects p q - room x y - ball left right - hand)
 (:init (robot p) (at x p) (at y p) (free left) (free right))
 (:goal (and (at x q) (at y q))))
"""

THREE_BALLS = """(define (problem three) (:domain gripper)
 (:objects p q - room x y z - ball left right - hand)
 (:init (robot p) (at x p) (at y p) (at z p) (free left) (free right))
 (:goal (and (at x q) (at y q) (at z q))))
"""


class Gripper(PlannerTest):
    """One to three balls."""

    def test_one_or_two_balls(self):
        # A pick, a move and a drop.
        self.costs(DOMAIN, ONE_BALL, 3)
        # A pick and a drop each, and one move for both.
        self.costs(DOMAIN, TWO_BALLS, 5)

    def test_three_balls(self):
        # A pick and a drop each; with two hands two moves there, and one back.
        self.costs(DOMAIN, THREE_BALLS, 9)
