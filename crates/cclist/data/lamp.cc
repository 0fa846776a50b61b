:- constants on :: inertialFluent; flip :: exogenousAction.
flip causes on if -on.
flip causes -on if on.
:- query label :: 1; maxstep :: 0..2; 0: -on; maxstep: on.
