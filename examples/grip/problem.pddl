(define (problem g1) (:domain grip) (:objects p q x y)
 (:init (room p) (room q) (ball x) (ball y) (here p) (in x p) (in y p) (free))
 (:goal (and (in x q) (in y q))))
