; A door leads out of the last room and none into it: there is no walk that comes there, however long.
(define (problem one-way)
  (:domain visit-all)
  (:objects r1 r2 r3 r4 - room)
  (:init
    (next r1 r2) (next r2 r1) (next r2 r3) (next r3 r2) (next r4 r3)
    (at r1) (visited r1))
  (:goal (visited r4)))
