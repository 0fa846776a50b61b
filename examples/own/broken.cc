% As it is meant: `-broken`.
:- constants broken, on :: inertialFluent; flip :: exogenousAction.
flip causes on if -broken.
:- query label :: flip; maxstep :: 1; 0: -on & -broken; 0: flip; 1: on.
