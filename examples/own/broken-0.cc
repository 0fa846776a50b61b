% The trap: `broken` is true or false, and never 0. The law is no fault, and never causes anything.
:- constants broken, on :: inertialFluent; flip :: exogenousAction.
flip causes on if broken=0.
:- query label :: flip; maxstep :: 1; 0: -on & -broken; 0: flip; 1: on.
