% Two latches. Actions may be done at the same time, unless something forbids it.
:- sorts latch.
:- objects left, right :: latch.
:- variables L :: latch.
:- constants up(latch) :: inertialFluent; lift(latch) :: exogenousAction.
lift(L) causes up(L).
:- query label :: both; maxstep :: 0..2; 0: -up(left) & -up(right); maxstep: up(left) & up(right).
