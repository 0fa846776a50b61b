; The tower a on b on c is turned over, and d, which lies beside it, comes to the top.
(define (problem turned-tower)
  (:domain blocks)
  (:objects a b c d - block)
  (:init (on a b) (on b c) (on-table c) (on-table d) (clear a) (clear d) (hand-empty))
  (:goal (and (on b a) (on c b) (on d c))))
