"""Crossings of a river and of a bridge."""

from planning import PlannerTest

# A man has a boat for himself and one thing more. Without him the wolf eats the goat, and the goat the cabbage.
RIVER = """(define (domain river)
 (:requirements :typing :negative-preconditions :equality)
 (:types thing bank)
 (:constants wolf goat cabbage - thing)
 (:predicates (boat ?b - bank) (at ?t - thing ?b - bank))
 (:action row-without-goat :parameters (?x ?y - bank)
  :precondition (and (not (= ?x ?y)) (boat ?x) (not (at goat ?x)))
  :effect (and (not (boat ?x)) (boat ?y)))
 (:action row-from-goat :parameters (?x ?y - bank)
  :precondition (and (not (= ?x ?y)) (boat ?x) (not (at wolf ?x)) (not (at cabbage ?x)))
  :effect (and (not (boat ?x)) (boat ?y)))
 (:action take-goat :parameters (?x ?y - bank)
  :precondition (and (not (= ?x ?y)) (boat ?x) (at goat ?x))
  :effect (and (not (boat ?x)) (boat ?y) (not (at goat ?x)) (at goat ?y)))
 (:action take-without-goat :parameters (?t - thing ?x ?y - bank)
  :precondition (and (not (= ?x ?y)) (boat ?x) (at ?t ?x) (not (at goat ?x)))
  :effect (and (not (boat ?x)) (boat ?y) (not (at ?t ?x)) (at ?t ?y)))
 (:action take-from-goat :parameters (?t ?gone - thing ?x ?y - bank)
  :precondition (and (not (= ?x ?y)) (not (= ?t goat)) (not (= ?gone goat)) (not (= ?t ?gone))
   (boat ?x) (at ?t ?x) (not (at ?gone ?x)))
  :effect (and (not (boat ?x)) (boat ?y) (not (at ?t ?x)) (at ?t ?y))))
"""

WOLF_GOAT_CABBAGE = """(define (problem all) (:domain river)
 (:objects left right - bank)
 (:init (boat left) (at wolf left) (at goat left) (at cabbage left))
 (:goal (and (at wolf right) (at goat right) (at cabbage right))))
"""

# One or two persons cross with the torch, as fast as the slower one.
BRIDGE = """(define (domain bridge)
 (:requirements :typing :action-costs)
 (:types person side)
 (:predicates (at ?p - person ?s - side) (torch ?s - side) (across ?x ?y - side) (slower ?p ?q - person))
 (:functions (total-cost) - number (time ?p - person) - number)
 (:action cross :parameters (?p - person ?x ?y - side)
  :precondition (and (across ?x ?y) (torch ?x) (at ?p ?x))
  :effect (and (not (torch ?x)) (torch ?y) (not (at ?p ?x)) (at ?p ?y) (increase (total-cost) (time ?p))))
 (:action cross-together :parameters (?p ?q - person ?x ?y - side)
  :precondition (and (across ?x ?y) (torch ?x) (at ?p ?x) (at ?q ?x) (slower ?p ?q))
  :effect (and (not (torch ?x)) (torch ?y) (not (at ?p ?x)) (at ?p ?y) (not (at ?q ?x)) (at ?q ?y)
   (increase (total-cost) (time ?p)))))
"""

TWO_PERSONS = """(define (problem two) (:domain bridge)
 (:objects near far - side p1 p2 - person)
 (:init (across near far) (across far near) (torch near) (at p1 near) (at p2 near) (slower p2 p1)
  (= (time p1) 1) (= (time p2) 2))
 (:goal (and (at p1 far) (at p2 far))) (:metric minimize (total-cost)))
"""

THREE_PERSONS = """(define (problem three) (:domain bridge)
 (:objects near far - side p1 p2 p5 - person)
 (:init (across near far) (across far near) (torch near) (at p1 near) (at p2 near) (at p5 near)
  (slower p2 p1) (slower p5 p1) (slower p5 p2)
  (= (time p1) 1) (= (time p2) 2) (= (time p5) 5))
 (:goal (and (at p1 far) (at p2 far) (at p5 far))) (:metric minimize (total-cost)))
"""

FOUR_PERSONS = """(define (problem four) (:domain bridge)
 (:objects near far - side p1 p2 p5 p10 - person)
 (:init (across near far) (across far near) (torch near) (at p1 near) (at p2 near) (at p5 near) (at p10 near)
  (slower p2 p1) (slower p5 p1) (slower p5 p2) (slower p10 p1) (slower p10 p2) (slower p10 p5)
  (= (total-cost) 0) (= (time p1) 1) (= (time p2) 2) (= (time p5) 5) (= (time p10) 10))
 (:goal (and (at p1 far) (at p2 far) (at p5 far) (at p10 far))) (:metric minimize (total-cost)))
"""


class River(PlannerTest):
    """A wolf, a goat and a cabbage, to be taken to the other bank."""

    def test_river(self):
        # The goat crosses first, goes back when the second thing is there, and crosses again: four crossings there,
        # three back.
        self.costs(RIVER, WOLF_GOAT_CABBAGE, 7)


class Bridge(PlannerTest):
    """Persons with one torch, who cross a bridge."""

    def test_two_or_three_persons(self):
        # Both together.
        self.costs(BRIDGE, TWO_PERSONS, 2)
        # 1 crosses with each of the others in turn: 2 + 1 + 5.
        self.costs(BRIDGE, THREE_PERSONS, 8)

    def test_four_persons(self):
        # 5 and 10 go together, and 1 and 2 bring the torch back: 2 + 1 + 10 + 2 + 2 (Rote 2002).
        self.costs(BRIDGE, FOUR_PERSONS, 17)
