"""Cells to be visited, and a maze."""

from planning import PlannerTest, by_seeds, by_threads

VISIT_ALL = """(define (domain visit-all)
 (:requirements :typing)
 (:types cell)
 (:predicates (here ?c - cell) (visited ?c - cell) (next ?x ?y - cell))
 (:action step :parameters (?x ?y - cell)
  :precondition (and (here ?x) (next ?x ?y))
  :effect (and (not (here ?x)) (here ?y) (visited ?y))))
"""

FOUR_CELLS = """(define (problem four) (:domain visit-all)
 (:objects a1 a2 b1 b2 - cell)
 (:init (here a1) (visited a1) (next a1 a2) (next a2 a1) (next b1 b2) (next b2 b1)
  (next a1 b1) (next b1 a1) (next a2 b2) (next b2 a2))
 (:goal (and (visited a1) (visited a2) (visited b1) (visited b2))))
"""

# From the corner row by row, to each other cell once: 8 moves.
NINE_CELLS = """(define (problem nine) (:domain visit-all)
 (:objects a1 a2 a3 b1 b2 b3 c1 c2 c3 - cell)
 (:init (here a1) (visited a1)
  (next a1 a2) (next a2 a1) (next a2 a3) (next a3 a2)
  (next b1 b2) (next b2 b1) (next b2 b3) (next b3 b2)
  (next c1 c2) (next c2 c1) (next c2 c3) (next c3 c2)
  (next a1 b1) (next b1 a1) (next b1 c1) (next c1 b1)
  (next a2 b2) (next b2 a2) (next b2 c2) (next c2 b2)
  (next a3 b3) (next b3 a3) (next b3 c3) (next c3 b3))
 (:goal (and (visited a1) (visited a2) (visited a3) (visited b1) (visited b2) (visited b3)
  (visited c1) (visited c2) (visited c3))))
"""

# Passages have one direction.
MAZE = """(define (domain maze)
 (:requirements :typing :action-costs)
 (:types gate hall - place)
 (:predicates (at ?p - place) (passage ?x ?y - place))
 (:functions (total-cost) - number (length ?x ?y - place) - number)
 (:action walk :parameters (?x ?y - place)
  :precondition (and (at ?x) (passage ?x ?y))
  :effect (and (not (at ?x)) (at ?y) (increase (total-cost) (length ?x ?y)))))
"""

FIVE_WAYS = """(define (problem five) (:domain maze)
 (:objects in out - gate p q r - hall)
 (:init (at in) (passage in p) (passage in q) (passage q p) (passage q r) (passage p r) (passage p out) (passage r out)
  (= (length in p) 7) (= (length in q) 2) (= (length q p) 3) (= (length q r) 6) (= (length p r) 1)
  (= (length p out) 5) (= (length r out) 2))
 (:goal (at out)) (:metric minimize (total-cost)))
"""


# The default greatest number of abstract states of a table.
DEFAULT_TABLE = 100_000


class VisitAll(PlannerTest):
    """Each cell of a grid is to be visited."""

    def test_four_cells(self):
        # Around the square, each other cell once.
        self.costs(VISIT_ALL, FOUR_CELLS, 3)

    def test_nine_cells_with_one_worker(self):
        self.costs_by(by_seeds(1), VISIT_ALL, NINE_CELLS, 8, DEFAULT_TABLE)

    def test_nine_cells_with_two_workers(self):
        self.costs_by(by_seeds(2), VISIT_ALL, NINE_CELLS, 8, DEFAULT_TABLE)

    def test_nine_cells_with_five_workers(self):
        self.costs_by(by_seeds(5), VISIT_ALL, NINE_CELLS, 8, DEFAULT_TABLE)

    def test_nine_cells_with_threads(self):
        self.costs_by(by_threads(1, 3, 8), VISIT_ALL, NINE_CELLS, 8, DEFAULT_TABLE)


class Mazes(PlannerTest):
    """A shortest way through a maze."""

    def test_mazes(self):
        # Of five ways (over p 12, p r 10, q p 10, q p r 8, q r 10) the one with the most passages is the shortest.
        self.costs(MAZE, FIVE_WAYS, 8)
