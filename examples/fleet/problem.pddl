; Two parcels are to be delivered in the north. The parcels in the south, their truck, and a third parcel in the north wait.
(define (problem two-of-six)
  (:domain fleet)
  (:objects
    amber birch cedar - truck
    n1 n2 n3 s1 s2 s3 - depot
    p1 p2 p3 p4 p5 p6 - parcel)
  (:init
    (road n1 n2) (road n2 n1) (road n2 n3) (road n3 n2)
    (road s1 s2) (road s2 s1) (road s2 s3) (road s3 s2)
    (= (length n1 n2) 4) (= (length n2 n1) 4) (= (length n2 n3) 3) (= (length n3 n2) 3)
    (= (length s1 s2) 5) (= (length s2 s1) 5) (= (length s2 s3) 2) (= (length s3 s2) 2)
    (at amber n1) (at birch n3) (at cedar s1)
    (waits p1 n1) (waits p2 n2) (waits p3 n3) (waits p4 s1) (waits p5 s2) (waits p6 s3)
    (= (total-cost) 0))
  (:goal (and (waits p1 n3) (waits p2 n1)))
  (:metric minimize (total-cost)))
