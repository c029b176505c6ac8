(define (problem p) (:objects d) (:init) (:goal (in)))
