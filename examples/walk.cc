% One action with a value beside it, in place of one action for each place. Only the station has a train to the office.
:- sorts place.
:- objects home, station, office :: place.
:- variables P :: place.
:- constants at :: inertialFluent(place); go :: exogenousAction; to :: attribute(place) of go.
go causes at=P if to=P.
nonexecutable go if to=office & at\=station.
:- query label :: 1; maxstep :: 0..3; 0: at=home; maxstep: at=office.
