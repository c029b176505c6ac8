; A bench on which components are tested: each is mounted, supplied with power, measured, and released again.
(define (domain bench)
  (:requirements :strips :typing :negative-preconditions)
  (:types component probe)
  (:predicates
    (fits ?probe - probe ?component - component)
    (mounted ?component - component)
    (powered ?component - component)
    (warm ?component - component)
    (measured ?component - component)
    (labelled ?component - component)
    (calibrated ?probe - probe)
    (busy))
  (:action mount
    :parameters (?component - component)
    :precondition (not (busy))
    :effect (and (mounted ?component) (busy)))
  (:action release
    :parameters (?component - component)
    :precondition (and (mounted ?component) (not (powered ?component)))
    :effect (and (not (mounted ?component)) (not (busy)) (not (warm ?component))))
  (:action switch-on
    :parameters (?component - component)
    :precondition (mounted ?component)
    :effect (powered ?component))
  (:action switch-off
    :parameters (?component - component)
    :precondition (powered ?component)
    :effect (not (powered ?component)))
  (:action heat
    :parameters (?component - component)
    :precondition (powered ?component)
    :effect (warm ?component))
  (:action calibrate
    :parameters (?probe - probe)
    :effect (calibrated ?probe))
  (:action measure
    :parameters (?component - component ?probe - probe)
    :precondition (and (warm ?component) (fits ?probe ?component) (calibrated ?probe))
    :effect (and (measured ?component) (not (calibrated ?probe))))
  (:action label
    :parameters (?component - component)
    :precondition (mounted ?component)
    :effect (labelled ?component)))
