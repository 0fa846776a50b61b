:- query maxstep :: 0.
