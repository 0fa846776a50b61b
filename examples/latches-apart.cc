% The latches of latches.cc, lifted one at a time.
:- sorts latch.
:- objects left, right :: latch.
:- variables L :: latch.
:- constants up(latch) :: inertialFluent; lift(latch) :: exogenousAction.
lift(L) causes up(L).
noconcurrency.
:- query label :: both; maxstep :: 0..2; 0: -up(left) & -up(right); maxstep: up(left) & up(right).
