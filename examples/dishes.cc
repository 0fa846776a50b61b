% After dinner somebody who is at home washes up, and nobody does without a cause: who?
:- sorts person.
:- objects ann, bob, eve :: person.
:- variables P :: person.
:- constants home(person) :: inertialFluent; washes(person) :: sdFluent.
default -washes(P).
caused [\/P | home(P) & washes(P)].
:- query maxstep :: 0; 0: home(ann), home(bob) & -home(eve).
