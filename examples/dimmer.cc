% A dimmer: each turn leads from off to low, from low to high, and from high to off.
:- sorts level.
:- objects off, low, high :: level.
:- constants light :: inertialFluent(level); turn :: exogenousAction.
turn causes light=low if light=off.
turn causes light=high if light=low.
turn causes light=off if light=high.
:- query label :: 1; maxstep :: 0..3; 0: light=off; maxstep: light=high.
