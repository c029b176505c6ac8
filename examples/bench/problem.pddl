; Of eight components two are to be measured; the bench is to be free afterwards.
(define (problem two-of-eight)
  (:domain bench)
  (:objects
    c1 c2 c3 c4 c5 c6 c7 c8 - component
    fine coarse - probe)
  (:init
    (fits fine c1) (fits fine c2) (fits fine c3) (fits fine c4)
    (fits coarse c5) (fits coarse c6) (fits coarse c7) (fits coarse c8))
  (:goal (and (measured c2) (measured c3) (not (busy)))))
