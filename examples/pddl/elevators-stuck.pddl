; No lift comes from the floors where ann is to the floor where she wants to be: there is no plan.
(define (problem wrong-house)
  (:domain elevators)
  (:objects f1 f2 f3 f4 - floor
            low high - lift
            ann - person)
  (:init
    (reaches low f1) (reaches low f2) (reaches high f3) (reaches high f4)
    (lift-at low f1) (lift-at high f3) (waits ann f2) (wants ann f4))
  (:goal (served ann)))
