; Three rows of three rooms; the walk begins in the middle of the first row, so that one room is passed twice.
(define (problem nine-rooms)
  (:domain visit-all)
  (:objects r11 r12 r13 r21 r22 r23 r31 r32 r33 - room)
  (:init
    (next r11 r12) (next r12 r11) (next r12 r13) (next r13 r12)
    (next r21 r22) (next r22 r21) (next r22 r23) (next r23 r22)
    (next r31 r32) (next r32 r31) (next r32 r33) (next r33 r32)
    (next r11 r21) (next r21 r11) (next r21 r31) (next r31 r21)
    (next r12 r22) (next r22 r12) (next r22 r32) (next r32 r22)
    (next r13 r23) (next r23 r13) (next r23 r33) (next r33 r23)
    (at r12) (visited r12))
  (:goal (and (visited r11) (visited r12) (visited r13) (visited r21) (visited r22) (visited r23) (visited r31) (visited r32) (visited r33))))
