% The light of a staircase has two switches; it is on where these do not stand alike. So each switch turns it on and off.
:- sorts switch.
:- objects below, above :: switch.
:- variables S :: switch.
:- constants up(switch) :: inertialFluent; lit :: sdFluent; flip(switch) :: exogenousAction.
flip(S) causes up(S) if -up(S).
flip(S) causes -up(S) if up(S).
default -lit.
caused lit if -(up(below) <-> up(above)).
noconcurrency.
:- query label :: 1; maxstep :: 2; 0: -lit & -up(below); 0: flip(below); 1: flip(above).
