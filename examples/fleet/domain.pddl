; Trucks carry parcels along roads. Each driver may switch the truck's radio, and each depot has a lamp.
(define (domain fleet)
  (:requirements :strips :typing :action-costs)
  (:types truck parcel depot)
  (:predicates
    (road ?from ?to - depot)
    (at ?truck - truck ?depot - depot)
    (waits ?parcel - parcel ?depot - depot)
    (in ?parcel - parcel ?truck - truck)
    (playing ?truck - truck)
    (lit ?depot - depot))
  (:functions (total-cost) - number (length ?from ?to - depot) - number)
  (:action drive
    :parameters (?truck - truck ?from ?to - depot)
    :precondition (and (at ?truck ?from) (road ?from ?to))
    :effect (and (not (at ?truck ?from)) (at ?truck ?to) (increase (total-cost) (length ?from ?to))))
  (:action load
    :parameters (?parcel - parcel ?truck - truck ?depot - depot)
    :precondition (and (waits ?parcel ?depot) (at ?truck ?depot))
    :effect (and (not (waits ?parcel ?depot)) (in ?parcel ?truck) (increase (total-cost) 1)))
  (:action unload
    :parameters (?parcel - parcel ?truck - truck ?depot - depot)
    :precondition (and (in ?parcel ?truck) (at ?truck ?depot))
    :effect (and (not (in ?parcel ?truck)) (waits ?parcel ?depot) (increase (total-cost) 1)))
  (:action switch-radio-on
    :parameters (?truck - truck)
    :effect (and (playing ?truck) (increase (total-cost) 1)))
  (:action switch-radio-off
    :parameters (?truck - truck)
    :precondition (playing ?truck)
    :effect (and (not (playing ?truck)) (increase (total-cost) 1)))
  (:action light
    :parameters (?depot - depot)
    :effect (and (lit ?depot) (increase (total-cost) 1))))
