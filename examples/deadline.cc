% Work that is due at four: how long may it wait? A clock without inertia goes on by itself, and behind its last hour there is no step.
:- sorts hour.
:- objects 0..4 :: hour.
:- variables H :: hour.
:- constants clock :: simpleFluent(hour); left :: inertialFluent(hour); late :: sdFluent; work :: exogenousAction.
caused clock=H+1 after clock=H.
work causes left=H-1 if left=H.
nonexecutable work if left=0.
% There are fewer hours than there is work for.
caused late if clock+left>4.
default -late.
:- query label :: wait; maxstep :: 4; 0: clock=0 & left=2; maxstep: left=0.
:- query label :: late; maxstep :: 4; 0: clock=0 & left=3 & -work; 1: -work; claim :: 2: late.
:- query label :: beyond; maxstep :: 5; 0: clock=0.
