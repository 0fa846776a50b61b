; Rovers take samples and pictures, and send what they have found from where the lander can be seen.
(define (domain rovers)
  (:requirements :adl)
  (:types rover waypoint target)
  (:constants lander-place - waypoint)
  (:predicates
    (at ?r - rover ?w - waypoint) (path ?r - rover ?from ?to - waypoint) (sees ?from ?to - waypoint) (views ?w - waypoint ?t - target)
    (soil ?w - waypoint) (full ?r - rover) (has-soil ?r - rover ?w - waypoint) (has-picture ?r - rover ?t - target)
    (ready ?r - rover) (sent-soil ?w - waypoint) (sent-picture ?t - target))
  (:action go
    :parameters (?r - rover ?from ?to - waypoint)
    :precondition (and (at ?r ?from) (or (path ?r ?from ?to) (path ?r ?to ?from)))
    :effect (and (at ?r ?to) (not (at ?r ?from)) (not (ready ?r))))
  (:action take-soil
    :parameters (?r - rover ?w - waypoint)
    :precondition (and (at ?r ?w) (soil ?w) (not (full ?r)))
    :effect (and (has-soil ?r ?w) (full ?r) (not (soil ?w))))
  (:action empty
    :parameters (?r - rover)
    :precondition (full ?r)
    :effect (not (full ?r)))
  (:action calibrate
    :parameters (?r - rover)
    :precondition (exists (?w - waypoint ?t - target) (and (at ?r ?w) (views ?w ?t)))
    :effect (ready ?r))
  (:action take-picture
    :parameters (?r - rover ?w - waypoint ?t - target)
    :precondition (and (at ?r ?w) (views ?w ?t) (ready ?r))
    :effect (and (has-picture ?r ?t) (not (ready ?r))))
  ; All that a rover has is sent at once.
  (:action send
    :parameters (?r - rover ?w - waypoint)
    :precondition (and (at ?r ?w) (sees ?w lander-place))
    :effect (and
      (forall (?s - waypoint) (when (has-soil ?r ?s) (sent-soil ?s)))
      (forall (?t - target) (when (has-picture ?r ?t) (sent-picture ?t))))))
