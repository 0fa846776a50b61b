% The crossing of lights.cc, with the law that was missing: the lights do not turn at the same time.
:- sorts light.
:- objects north, east :: light.
:- variables L, M :: light.
:- constants green(light) :: inertialFluent; turn(light) :: exogenousAction.
turn(L) causes green(L) if -green(L).
turn(L) causes -green(L) if green(L).
nonexecutable turn(L) if -green(L) & green(M) where L\=M.
always -(turn(north) & turn(east)).
:- query label :: safe; maxstep :: 0..3; 0: -green(north) & -green(east); claim :: maxstep: -(green(north) & green(east)).
