% A bike that is lent at a desk, and given back there.
:- sorts place >> person.
:- objects desk :: place; ann, ben :: person.
:- variables P :: person.
:- constants bike :: inertialFluent(place); free :: sdFluent; lend(person), give(person) :: exogenousAction.
lend(P) causes bike=P.
give(P) causes bike=desk.
nonexecutable lend(P) if bike\=desk.
nonexecutable give(P) if bike\=P.
default -free.
caused free if bike=desk.
:- query label :: plan; maxstep :: 0..3; 0: bike=ann; maxstep: bike=ben.
:- query label :: states; maxstep :: 0.
:- query label :: steps; maxstep :: 1.
% Who has the bike hands it to nobody but the desk.
:- query label :: desk; maxstep :: 1; 0: bike=ann; claim :: 1: bike=ann ++ free.
% Nobody has the bike while it is free: no history meets this condition, so a claim about it says nothing.
:- query label :: nothing; maxstep :: 0; 0: free & bike=ann; claim :: 0: -free.
