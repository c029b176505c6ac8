"""Small planning tasks with known optimal costs: blocks, lamps and locks, and tiles. Each is solved with many seeds and
with threads."""

from planning import PlannerTest

# Blocks on a table, moved by one hand with four operators.
BLOCKS = """(define (domain blocks)
 (:requirements :strips)
 (:predicates (on ?x ?y) (on-table ?x) (clear ?x) (empty) (held ?x))
 (:action pick-up :parameters (?x)
  :precondition (and (clear ?x) (on-table ?x) (empty))
  :effect (and (not (on-table ?x)) (not (clear ?x)) (not (empty)) (held ?x)))
 (:action put-down :parameters (?x)
  :precondition (held ?x)
  :effect (and (not (held ?x)) (clear ?x) (empty) (on-table ?x)))
 (:action stack :parameters (?x ?y)
  :precondition (and (held ?x) (clear ?y))
  :effect (and (not (held ?x)) (not (clear ?y)) (clear ?x) (empty) (on ?x ?y)))
 (:action unstack :parameters (?x ?y)
  :precondition (and (on ?x ?y) (clear ?x) (empty))
  :effect (and (held ?x) (clear ?y) (not (clear ?x)) (not (empty)) (not (on ?x ?y)))))
"""

# Sussman's anomaly.
ANOMALY = """(define (problem anomaly) (:domain blocks)
 (:objects a b c)
 (:init (on c a) (on-table a) (on-table b) (clear c) (clear b) (empty))
 (:goal (and (on a b) (on b c))))
"""

# A tower that is to be reversed.
REVERSAL = """(define (problem reversal) (:domain blocks)
 (:objects a b c)
 (:init (on a b) (on b c) (on-table c) (clear a) (empty))
 (:goal (and (on c b) (on b a))))
"""


class Blocks(PlannerTest):
    """Three blocks to be stacked in another order."""

    def test_anomaly(self):
        # c must be off a before a goes on b, and b on c before that: three moves of a block, each of two steps.
        self.costs(BLOCKS, ANOMALY, 6)

    def test_reversal(self):
        # a must go to the table, b onto a, and c from the table onto b: three moves of a block, each of two steps.
        self.costs(BLOCKS, REVERSAL, 6)


# One leaves only if the lamp of the hall is off. A lamp is switched off from its room.
LAMPS = """(define (domain lamps)
 (:requirements :typing :negative-preconditions)
 (:types room)
 (:constants hall - room)
 (:predicates (in ?r - room) (outside) (lit ?r - room) (next ?x ?y - room))
 (:action walk :parameters (?x ?y - room)
  :precondition (and (in ?x) (next ?x ?y))
  :effect (and (not (in ?x)) (in ?y)))
 (:action switch-off :parameters (?r - room)
  :precondition (and (in ?r) (lit ?r))
  :effect (not (lit ?r)))
 (:action leave :parameters ()
  :precondition (and (in hall) (not (lit hall)))
  :effect (and (not (in hall)) (outside))))
"""

THREE_LAMPS = """(define (problem three) (:domain lamps)
 (:objects kitchen bath - room)
 (:init (in hall) (lit hall) (lit kitchen) (lit bath)
  (next hall kitchen) (next kitchen hall) (next hall bath) (next bath hall))
 (:goal (and (outside) (not (lit kitchen)) (not (lit bath)))))
"""

LOCKS = """(define (domain locks)
 (:requirements :typing)
 (:types room key)
 (:predicates (in ?r - room) (lies ?k - key ?r - room) (has ?k - key) (door ?x ?y - room) (lock ?k - key ?x ?y - room))
 (:action walk :parameters (?x ?y - room)
  :precondition (and (in ?x) (door ?x ?y))
  :effect (and (not (in ?x)) (in ?y)))
 (:action take :parameters (?k - key ?r - room)
  :precondition (and (in ?r) (lies ?k ?r))
  :effect (and (not (lies ?k ?r)) (has ?k)))
 (:action unlock :parameters (?k - key ?x ?y - room)
  :precondition (and (in ?x) (has ?k) (lock ?k ?x ?y))
  :effect (door ?x ?y)))
"""

KEY_BEHIND_ITS_LOCK = """(define (problem locked) (:domain locks)
 (:objects a b c - room brass iron - key)
 (:init (in a) (door a b) (door b a) (lock iron b c) (lock brass c a) (lies brass a) (lies iron c))
 (:goal (in c)))
"""


class Houses(PlannerTest):
    """Lamps and locks."""

    def test_lamps(self):
        # Three lamps, the ways to the kitchen and to the bath and back, and the step outside: 3 + 4 + 1.
        self.costs(LAMPS, THREE_LAMPS, 8)

    def test_locks(self):
        # The only way to c is by the lock of the iron key, which lies in c.
        self.unsolvable(LOCKS, KEY_BEHIND_ITS_LOCK)


TILES = """(define (domain tiles)
 (:requirements :typing)
 (:types tile cell)
 (:constants one two three - tile a b c d - cell)
 (:predicates (at ?t - tile ?c - cell) (blank ?c - cell) (next ?x ?y - cell))
 (:action slide :parameters (?t - tile ?from ?to - cell)
  :precondition (and (at ?t ?from) (blank ?to) (next ?from ?to))
  :effect (and (not (at ?t ?from)) (at ?t ?to) (not (blank ?to)) (blank ?from))))
"""

TWO_MOVES = """(define (problem near) (:domain tiles)
 (:init (next a b) (next b c) (next c d) (next d a) (next b a) (next c b) (next d c) (next a d)
  (blank a) (at two b) (at three c) (at one d))
 (:goal (and (at one a) (at two b) (at three d))))
"""

SIX_MOVES = """(define (problem far) (:domain tiles)
 (:init (next a b) (next b c) (next c d) (next d a) (next b a) (next c b) (next d c) (next a d)
  (blank a) (at three b) (at one c) (at two d))
 (:goal (and (at one a) (at two b) (at three d))))
"""

# The goal with tiles one and two swapped.
SWAPPED = """(define (problem swapped) (:domain tiles)
 (:init (next a b) (next b c) (next c d) (next d a) (next b a) (next c b) (next d c) (next a d)
  (at two a) (at one b) (blank c) (at three d))
 (:goal (and (at one a) (at two b) (at three d))))
"""


class Tiles(PlannerTest):
    """Three tiles on four cells in a square, a and b above d and c. Around the square the tiles keep their cyclic
    order, so 12 of the 24 placements can be reached; moving the blank around the square visits them in a cycle."""

    def test_moves(self):
        # The tile one moves up, and three to the left: the blank moves halfway around the square.
        self.costs(TILES, TWO_MOVES, 2)
        # The blank moves one and a half times around the square, in either direction: half of the cycle.
        self.costs(TILES, SIX_MOVES, 6)

    def test_swapped_tiles(self):
        # Around the square the order is two, one, three, and the goal's is one, two, three.
        self.unsolvable(TILES, SWAPPED)
