% A coin that is tossed: one action, two outcomes.
:- constants heads :: inertialFluent; toss :: exogenousAction.
toss may cause heads.
toss may cause -heads.
:- query label :: 1; maxstep :: 1; 0: -heads & toss.
% Without conditions, at horizon 1: all transitions.
:- query label :: transitions; maxstep :: 1.
