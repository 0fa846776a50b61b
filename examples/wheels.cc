% Two wheels, each with a motor; where they are connected, they turn together. Which of them turn?
:- sorts wheel.
:- objects left, right :: wheel.
:- variables W :: wheel.
:- constants connected :: rigid; on(wheel) :: inertialFluent; turns(wheel) :: sdFluent; switch(wheel) :: exogenousAction.
switch(W) causes on(W).
default -turns(W).
caused turns(W) if on(W).
caused turns(left) <-> turns(right) if connected.
:- query maxstep :: 1; 0: connected & -on(left) & -on(right), switch(left) & -switch(right).
:- query label :: apart; maxstep :: 1; 0: -connected & -on(left) & -on(right), switch(left) & -switch(right).
