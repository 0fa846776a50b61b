% An airlock: two doors, of which one is shut before the other opens. Both are never open.
:- sorts door. :- objects inner, outer :: door. :- variables D, E :: door.
:- constants open(door) :: inertialFluent; pull(door), push(door) :: exogenousAction.
pull(D) causes open(D).
push(D) causes -open(D).
nonexecutable pull(D) if open(E).
nonexecutable push(D) if -open(D).
always -(pull(inner) & pull(outer)).
:- query label :: apart; maxstep :: 0..5; 0: [/\D | -open(D)]; claim :: maxstep: -(open(inner) & open(outer)).
