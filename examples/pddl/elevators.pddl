; The slow lift stops at each floor but the top one, the fast one at the lowest, the third and the top.
(define (problem four-people)
  (:domain elevators)
  (:objects f1 f2 f3 f4 - floor
            slow fast - lift
            ann bob eve kim - person)
  (:init
    (reaches slow f1) (reaches slow f2) (reaches slow f3) (reaches fast f1) (reaches fast f3) (reaches fast f4)
    (lift-at slow f1) (lift-at fast f4)
    (waits ann f2) (wants ann f4) (waits bob f2) (wants bob f1) (waits eve f4) (wants eve f1) (waits kim f1) (wants kim f3))
  (:goal (forall (?p - person) (served ?p))))
