% A law whose body contradicts itself has no effect; the law for p keeps out the states in which q holds without p.
:- constants p, q :: simpleFluent.
caused p if q & -p.
:- query maxstep :: 0.
