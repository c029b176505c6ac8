(define (problem parcel) (:domain logistics)
 (:objects plane - airplane
           truck1 truck2 - truck
           airport1 airport2 - airport
           office1 office2 - location
           city1 city2 - city
           parcel - package)
 (:init (at plane airport2) (at truck1 airport1) (at truck2 airport2) (at parcel office1)
  (in-city airport1 city1) (in-city office1 city1)
  (in-city airport2 city2) (in-city office2 city2))
 (:goal (at parcel office2)))
