% A bike that is lent, a first try: it allows more than is meant.
:- sorts place >> person.
:- objects desk :: place; ann, ben :: person.
:- variables P :: person.
:- constants bike :: inertialFluent(place); lend(person), give(person) :: exogenousAction.
lend(P) causes bike=P.
give(P) causes bike=desk.
:- query label :: plan; maxstep :: 0..3; 0: bike=ann; maxstep: bike=ben.
:- query label :: states; maxstep :: 0.
:- query label :: steps; maxstep :: 1.
