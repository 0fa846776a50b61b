; A walk through all rooms of a grid.
(define (domain visit-all)
  (:requirements :strips :typing)
  (:types room)
  (:predicates (next ?a ?b - room) (at ?r - room) (visited ?r - room))
  (:action walk
    :parameters (?from ?to - room)
    :precondition (and (at ?from) (next ?from ?to))
    :effect (and (at ?to) (not (at ?from)) (visited ?to))))
