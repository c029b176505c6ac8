(define (problem r1) (:domain road)
 (:objects a b c - loc)
 (:init (at a) (road a b) (road b c))
 (:goal (at c)))
