; Lifts carry people from floor to floor; a lift stops only at floors that it reaches.
(define (domain elevators)
  (:requirements :adl)
  (:types floor lift person)
  (:predicates
    (reaches ?l - lift ?f - floor) (lift-at ?l - lift ?f - floor) (waits ?p - person ?f - floor) (aboard ?p - person ?l - lift)
    (wants ?p - person ?f - floor) (served ?p - person))
  (:action travel
    :parameters (?l - lift ?from ?to - floor)
    :precondition (and (lift-at ?l ?from) (reaches ?l ?to) (not (= ?from ?to)))
    :effect (and (not (lift-at ?l ?from)) (lift-at ?l ?to)))
  ; All who wait get in.
  (:action fill
    :parameters (?l - lift ?f - floor)
    :precondition (and (lift-at ?l ?f) (exists (?p - person) (waits ?p ?f)))
    :effect (forall (?p - person) (when (waits ?p ?f) (and (aboard ?p ?l) (not (waits ?p ?f))))))
  ; All get out; who is where she wants to be is served, and waits no more.
  (:action clear
    :parameters (?l - lift ?f - floor)
    :precondition (lift-at ?l ?f)
    :effect (forall (?p - person)
      (when (aboard ?p ?l)
        (and (not (aboard ?p ?l))
             (when (wants ?p ?f) (served ?p))
             (when (not (wants ?p ?f)) (waits ?p ?f)))))))
