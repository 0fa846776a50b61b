; Parcels go by truck within a city, by plane from airport to airport.
(define (domain logistics)
  (:requirements :strips :typing)
  (:types place city thing - object
          airport - place
          parcel vehicle - thing
          truck plane - vehicle)
  (:predicates (at ?t - thing ?p - place) (in ?p - parcel ?v - vehicle) (within ?p - place ?c - city))
  (:action load
    :parameters (?what - parcel ?vehicle - (either truck plane) ?where - place)
    :precondition (and (at ?what ?where) (at ?vehicle ?where))
    :effect (and (in ?what ?vehicle) (not (at ?what ?where))))
  (:action unload
    :parameters (?what - parcel ?vehicle - (either truck plane) ?where - place)
    :precondition (and (in ?what ?vehicle) (at ?vehicle ?where))
    :effect (and (at ?what ?where) (not (in ?what ?vehicle))))
  (:action drive
    :parameters (?truck - truck ?from ?to - place ?city - city)
    :precondition (and (at ?truck ?from) (within ?from ?city) (within ?to ?city))
    :effect (and (not (at ?truck ?from)) (at ?truck ?to)))
  (:action fly
    :parameters (?plane - plane ?from ?to - airport)
    :precondition (at ?plane ?from)
    :effect (and (not (at ?plane ?from)) (at ?plane ?to))))
