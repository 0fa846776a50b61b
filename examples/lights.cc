% Two traffic lights at a crossing. Each may turn green while the other is red. Are they ever green together?
:- sorts light.
:- objects north, east :: light.
:- variables L, M :: light.
:- constants green(light) :: inertialFluent; turn(light) :: exogenousAction.
turn(L) causes green(L) if -green(L).
turn(L) causes -green(L) if green(L).
nonexecutable turn(L) if -green(L) & green(M) where L\=M.
:- query label :: safe; maxstep :: 0..3; 0: -green(north) & -green(east); claim :: maxstep: -(green(north) & green(east)).
