; Somebody walks along roads and switches lamps off.
(define (domain lamp)
 (:requirements :strips :negative-preconditions)
 (:predicates (at ?place) (road ?from ?to) (lit ?place))
 (:action go
  :parameters (?from ?to)
  :precondition (and (at ?from) (road ?from ?to))
  :effect (and (at ?to) (not (at ?from))))
 (:action switch-off
  :parameters (?place)
  :precondition (and (at ?place) (lit ?place))
  :effect (not (lit ?place))))
