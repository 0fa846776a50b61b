% Two causes that differ: no state.
:- constants p :: simpleFluent.
caused p.
caused -p.
:- query maxstep :: 0.
