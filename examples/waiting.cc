% A queue at a desk: who comes stands behind the last one, and when one is served all others move up. Who has the number 0 does not wait.
:- sorts person; place.
:- objects ann, ben :: person; 0..2 :: place.
:- variables P, Q :: person; N :: place.
:- constants at(person), waiting :: inertialFluent(place); come(person), serve :: exogenousAction.
come(P) causes at(P)=N+1 & waiting=N+1 if waiting=N.
serve causes at(P)=N-1 if at(P)=N.
serve causes waiting=N-1 if waiting=N.
nonexecutable come(P) if at(P)>0.
nonexecutable serve if waiting=0.
noconcurrency.
:- query label :: turn; maxstep :: 0..4; 0: waiting=0 & [/\P | at(P)=0]; maxstep: at(ben)=1 & at(ann)=2.
:- query label :: order; maxstep :: 0..3; 0: waiting=0 & [/\P | at(P)=0]; claim :: maxstep: at(ann)=0 ++ at(ben)=0 ++ at(ann)+at(ben)=3.
