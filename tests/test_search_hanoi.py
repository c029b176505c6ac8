"""The towers of Hanoi. Before the largest disc moves, all others must be on the third peg, so n discs take twice the
moves of n - 1 discs, and one more: 2^n - 1.
"""

from planning import PlannerTest

DOMAIN = """(define (domain hanoi)
 (:requirements :typing)
 (:types disc peg - place)
 (:predicates (clear ?p - place) (on ?d - disc ?p - place) (fits ?d - disc ?p - place))
 (:action move :parameters (?d - disc ?from ?to - place)
  :precondition (and (on ?d ?from) (clear ?d) (clear ?to) (fits ?d ?to))
  :effect (and (clear ?from) (on ?d ?to) (not (on ?d ?from)) (not (clear ?to)))))
"""

ONE_DISC = """(define (problem one) (:domain hanoi)
 (:objects one - disc a b c - peg)
 (:init (fits one a) (fits one b) (fits one c) (on one a) (clear one) (clear b) (clear c))
 (:goal (on one c)))
"""

TWO_DISCS = """(define (problem two) (:domain hanoi)
 (:objects one two - disc a b c - peg)
 (:init (fits one a) (fits one b) (fits one c) (fits one two) (fits two a) (fits two b) (fits two c)
  (on one two) (on two a) (clear one) (clear b) (clear c))
 (:goal (and (on one two) (on two c))))
"""

THREE_DISCS = """(define (problem three) (:domain hanoi)
 (:objects one two three - disc a b c - peg)
 (:init (fits one a) (fits one b) (fits one c) (fits one two) (fits one three)
  (fits two a) (fits two b) (fits two c) (fits two three) (fits three a) (fits three b) (fits three c)
  (on one two) (on two three) (on three a) (clear one) (clear b) (clear c))
 (:goal (and (on one two) (on two three) (on three c))))
"""

FOUR_DISCS = """(define (problem four) (:domain hanoi)
 (:objects one two three four - disc a b c - peg)
 (:init (fits one a) (fits one b) (fits one c) (fits one two) (fits one three) (fits one four)
  (fits two a) (fits two b) (fits two c) (fits two three) (fits two four)
  (fits three a) (fits three b) (fits three c) (fits three four) (fits four a) (fits four b) (fits four c)
  (on one two) (on two three) (on three four) (on four a) (clear one) (clear b) (clear c))
 (:goal (and (on one two) (on two three) (on three four) (on four c))))
"""

# The greatest number of abstract states of a table for the higher towers, small so that a test takes seconds.
SMALL_TABLE = 7


class Towers(PlannerTest):
    """Towers of one to four discs."""

    def test_up_to_two_discs(self):
        self.costs(DOMAIN, ONE_DISC, 1)
        self.costs(DOMAIN, TWO_DISCS, 3)

    def test_three_discs(self):
        self.costs(DOMAIN, THREE_DISCS, 7, SMALL_TABLE)

    def test_four_discs(self):
        self.costs(DOMAIN, FOUR_DISCS, 15, SMALL_TABLE)
