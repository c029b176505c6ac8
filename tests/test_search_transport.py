"""A ferry, a lift, and parcels."""

from planning import PlannerTest

# A ferry has room for one car.
FERRY = """(define (domain ferry)
 (:requirements :typing :equality)
 (:types car port)
 (:predicates (ferry ?p - port) (at ?c - car ?p - port) (aboard ?c - car) (empty))
 (:action sail :parameters (?from ?to - port)
  :precondition (and (ferry ?from) (not (= ?from ?to)))
  :effect (and (not (ferry ?from)) (ferry ?to)))
 (:action board :parameters (?c - car ?p - port)
  :precondition (and (ferry ?p) (at ?c ?p) (empty))
  :effect (and (not (at ?c ?p)) (not (empty)) (aboard ?c)))
 (:action debark :parameters (?c - car ?p - port)
  :precondition (and (ferry ?p) (aboard ?c))
  :effect (and (not (aboard ?c)) (empty) (at ?c ?p))))
"""

ONE_CAR = """(define (problem one) (:domain ferry)
 (:objects x - car here there - port)
 (:init (ferry here) (empty) (at x here))
 (:goal (at x there)))
"""

TWO_CARS = """(define (problem two) (:domain ferry)
 (:objects x y - car here there - port)
 (:init (ferry here) (empty) (at x here) (at y here))
 (:goal (and (at x there) (at y there))))
"""

THREE_CARS = """(define (problem three) (:domain ferry)
 (:objects x y z - car here there - port)
 (:init (ferry here) (empty) (at x here) (at y here) (at z here))
 (:goal (and (at x there) (at y there) (at z there))))
"""

# The lift of the miconic domain, which takes any number of passengers.
LIFT = """(define (domain miconic)
 (:requirements :strips)
 (:predicates (passenger ?p) (floor ?f) (origin ?p ?f) (destination ?p ?f) (above ?low ?high) (lift ?f) (boarded ?p) (served ?p))
 (:action board :parameters (?f ?p)
  :precondition (and (floor ?f) (passenger ?p) (lift ?f) (origin ?p ?f))
  :effect (boarded ?p))
 (:action depart :parameters (?f ?p)
  :precondition (and (floor ?f) (passenger ?p) (lift ?f) (destination ?p ?f) (boarded ?p))
  :effect (and (not (boarded ?p)) (served ?p)))
 (:action up :parameters (?from ?to)
  :precondition (and (floor ?from) (floor ?to) (lift ?from) (above ?from ?to))
  :effect (and (lift ?to) (not (lift ?from))))
 (:action down :parameters (?from ?to)
  :precondition (and (floor ?from) (floor ?to) (lift ?from) (above ?to ?from))
  :effect (and (lift ?to) (not (lift ?from)))))
"""

ONE_PASSENGER = """(define (problem one) (:domain miconic)
 (:objects x f1 f2)
 (:init (passenger x) (floor f1) (floor f2) (above f1 f2) (lift f1) (origin x f1) (destination x f2))
 (:goal (served x)))
"""

TWO_PASSENGERS = """(define (problem two) (:domain miconic)
 (:objects x y f1 f2 f3)
 (:init (passenger x) (passenger y) (floor f1) (floor f2) (floor f3) (above f1 f2) (above f1 f3) (above f2 f3)
  (lift f1) (origin x f1) (destination x f2) (origin y f2) (destination y f3))
 (:goal (and (served x) (served y))))
"""

# Parcels by truck within a city and by airplane between cities.
LOGISTICS = """(define (domain logistics)
 (:requirements :strips :typing)
 (:types truck airplane - vehicle
         parcel vehicle - movable
         airport office - place
         city place movable - object)
 (:predicates (within ?p - place ?c - city) (at ?m - movable ?p - place) (in ?x - parcel ?v - vehicle))
 (:action load :parameters (?x - parcel ?v - vehicle ?p - place)
  :precondition (and (at ?v ?p) (at ?x ?p))
  :effect (and (not (at ?x ?p)) (in ?x ?v)))
 (:action unload :parameters (?x - parcel ?v - vehicle ?p - place)
  :precondition (and (at ?v ?p) (in ?x ?v))
  :effect (and (not (in ?x ?v)) (at ?x ?p)))
 (:action drive :parameters (?t - truck ?from ?to - place ?c - city)
  :precondition (and (at ?t ?from) (within ?from ?c) (within ?to ?c))
  :effect (and (not (at ?t ?from)) (at ?t ?to)))
 (:action fly :parameters (?a - airplane ?from ?to - airport)
  :precondition (at ?a ?from)
  :effect (and (not (at ?a ?from)) (at ?a ?to))))
"""

ONE_CITY = """(define (problem near) (:domain logistics)
 (:objects rome - city forum arena - office van - truck x - parcel)
 (:init (within forum rome) (within arena rome) (at van forum) (at x forum))
 (:goal (at x arena)))
"""

TWO_CITIES = """(define (problem far) (:domain logistics)
 (:objects rome paris - city forum louvre - office ciampino orly - airport van lorry - truck jet - airplane x - parcel)
 (:init (within forum rome) (within ciampino rome) (within louvre paris) (within orly paris)
  (at van forum) (at lorry orly) (at jet ciampino) (at x forum))
 (:goal (at x louvre)))
"""


class Transport(PlannerTest):
    """Cars, passengers and parcels are loaded, carried and unloaded."""

    def test_ferries(self):
        # Each car boards, is carried and debarks, and between two cars the ferry sails back: 4 n - 1.
        self.costs(FERRY, ONE_CAR, 3)
        self.costs(FERRY, TWO_CARS, 7)
        self.costs(FERRY, THREE_CARS, 11)

    def test_lifts(self):
        # The passenger boards, the lift goes up, the passenger departs.
        self.costs(LIFT, ONE_PASSENGER, 3)
        # Both board and depart, and the lift goes to the two other floors.
        self.costs(LIFT, TWO_PASSENGERS, 6)

    def test_parcels(self):
        # The parcel is loaded, carried and unloaded.
        self.costs(LOGISTICS, ONE_CITY, 3)
        # By truck, plane and truck, each of which is at the parcel's next place: three times three.
        self.costs(LOGISTICS, TWO_CITIES, 9)
