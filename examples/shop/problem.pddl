; Two of six parts are ordered, in two colours.
(define (problem two-of-six)
  (:domain shop)
  (:objects
    a b c d e f - part
    red blue green - colour)
  (:init
    (bare a) (bare b) (bare c) (bare d) (bare e) (bare f) (empty)
    (= (total-cost) 0))
  (:goal (and (drilled a) (polished a) (painted a red) (round b) (painted b blue)))
  (:metric minimize (total-cost)))
