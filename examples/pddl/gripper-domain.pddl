; A robot with grippers brings balls from room to room. No types: the predicates room, ball and gripper tell things apart.
(define (domain gripper)
  (:requirements :strips :equality :negative-preconditions)
  (:predicates (room ?r) (ball ?b) (gripper ?g) (robot-in ?r) (ball-in ?b ?r) (free ?g) (carries ?g ?b))
  (:action move
    :parameters (?from ?to)
    :precondition (and (room ?from) (room ?to) (not (= ?from ?to)) (robot-in ?from))
    :effect (and (robot-in ?to) (not (robot-in ?from))))
  (:action pick
    :parameters (?ball ?room ?gripper)
    :precondition (and (ball ?ball) (room ?room) (gripper ?gripper) (ball-in ?ball ?room) (robot-in ?room) (free ?gripper))
    :effect (and (carries ?gripper ?ball) (not (ball-in ?ball ?room)) (not (free ?gripper))))
  (:action drop
    :parameters (?ball ?room ?gripper)
    :precondition (and (room ?room) (carries ?gripper ?ball) (robot-in ?room))
    :effect (and (ball-in ?ball ?room) (free ?gripper) (not (carries ?gripper ?ball)))))
