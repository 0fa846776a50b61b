% A table with a glass on it, and somebody at each end. Where one end alone is up, the glass is spilled.
:- sorts end.
:- objects left, right :: end.
:- variables E :: end.
:- constants up(end), spilled :: inertialFluent; lift(end) :: exogenousAction.
lift(E) causes up(E).
nonexecutable lift(E) if up(E).
caused spilled if -(up(left) <-> up(right)).
:- query label :: together; maxstep :: 0..2; 0: -up(left) & -up(right) & -spilled; maxstep: up(left) & up(right) & -spilled.
