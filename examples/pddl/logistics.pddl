(define (problem one-parcel-each-way)
  (:domain logistics)
  (:objects bern oslo - city
            bern-station oslo-station - place
            bern-airport oslo-airport - airport
            bern-truck oslo-truck - truck
            plane - plane
            letter - parcel)
  (:init
    (within bern-station bern) (within bern-airport bern) (within oslo-station oslo) (within oslo-airport oslo)
    (at bern-truck bern-airport) (at oslo-truck oslo-airport) (at plane oslo-airport) (at letter bern-station))
  (:goal (and (at letter oslo-station) (at plane bern-airport))))
