% A circuit: two lamps behind one fuse, each with a switch. The left lamp is dark: what is broken?
:- sorts part >> lamp.
:- objects left, right :: lamp; fuse :: part.
:- variables L :: lamp.
:- constants broken(part) :: rigid; closed(lamp) :: inertialFluent; lit(lamp) :: sdFluent.
default -lit(L).
caused lit(L) if closed(L) & -broken(L) & -broken(fuse).
:- query label :: dark; maxstep :: 0; 0: closed(left) & -lit(left).
% The right one is closed too, and shines.
:- query label :: other; maxstep :: 0; 0: closed(left) & -lit(left), closed(right) & lit(right).
