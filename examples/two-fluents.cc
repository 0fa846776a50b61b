:- constants p, q :: simpleFluent. :- query maxstep :: 0.
