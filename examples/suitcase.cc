% A suitcase with two latches: it is open while both are up. The open lid has no cause of its own; it follows.
:- sorts latch.
:- objects left, right :: latch.
:- variables L :: latch.
:- constants up(latch) :: inertialFluent; open :: sdFluent; toggle(latch) :: exogenousAction.
toggle(L) causes up(L) if -up(L).
toggle(L) causes -up(L) if up(L).
default -open.
caused open if [/\L | up(L)].
:- query label :: 1; maxstep :: 0..2; 0: -up(left) & -up(right); maxstep: open.
