% A counter that stops at its end: behind the last number there is none, and no law says that it becomes one.
:- sorts number.
:- objects 0..3 :: number.
:- variables N :: number.
:- constants count :: inertialFluent(number); up, reset :: exogenousAction.
up causes count=N+1 if count=N.
reset causes count=0.
nonexecutable up & reset.
:- query label :: high; maxstep :: 0..4; 0: count=0; maxstep: count>=2.
:- query label :: end; maxstep :: 1; 0: count=3 & up; claim :: 1: count=3.
