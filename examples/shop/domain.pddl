; A machine shop: parts are turned, drilled, polished and painted, each on the machine for it.
(define (domain shop)
  (:requirements :strips :typing :negative-preconditions :action-costs)
  (:types part colour)
  (:predicates
    (round ?part - part)
    (drilled ?part - part)
    (polished ?part - part)
    (painted ?part - part ?colour - colour)
    (bare ?part - part)
    (loaded ?colour - colour)
    (empty)
    (swept))
  (:functions (total-cost) - number)
  (:action turn
    :parameters (?part - part)
    :precondition (bare ?part)
    :effect (and (round ?part) (not (polished ?part)) (not (swept)) (increase (total-cost) 4)))
  (:action drill
    :parameters (?part - part)
    :precondition (and (round ?part) (bare ?part))
    :effect (and (drilled ?part) (not (polished ?part)) (not (swept)) (increase (total-cost) 3)))
  (:action polish
    :parameters (?part - part)
    :precondition (bare ?part)
    :effect (and (polished ?part) (increase (total-cost) 2)))
  (:action load-colour
    :parameters (?colour - colour)
    :precondition (empty)
    :effect (and (loaded ?colour) (not (empty)) (increase (total-cost) 1)))
  (:action flush
    :parameters (?colour - colour)
    :precondition (loaded ?colour)
    :effect (and (not (loaded ?colour)) (empty) (increase (total-cost) 2)))
  (:action paint
    :parameters (?part - part ?colour - colour)
    :precondition (and (bare ?part) (loaded ?colour))
    :effect (and (painted ?part ?colour) (not (bare ?part)) (increase (total-cost) 2)))
  (:action sweep
    :effect (and (swept) (increase (total-cost) 1))))
