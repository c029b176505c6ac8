(define (domain door)
 (:predicates (in) (locked ?d))
 (:action enter :parameters (?d)
  :precondition (not (locked ?d)) :effect (in)))
