(define (problem two-rovers)
  (:domain rovers)
  (:objects spirit hope - rover
            ridge plain crater - waypoint
            hill - target)
  (:init
    (at spirit ridge) (at hope plain)
    (path spirit ridge plain) (path hope plain crater) (path spirit plain lander-place) (path hope plain ridge)
    (sees ridge lander-place) (sees plain plain)
    (views crater hill) (soil ridge) (soil crater))
  (:goal (and (forall (?t - target) (sent-picture ?t)) (sent-soil ridge) (sent-soil crater))))
