% The laws of examples/circles.cc for clingo:  clingo 0 examples/clingo/circles.lp
block(a; b).
place(a; b; table).
1 { on(B,P) : place(P) } 1 :- block(B).
:- on(B,P), on(C,P), B != C, P != table.
grounded(B) :- on(B,table).
grounded(B) :- on(B,C), grounded(C).
:- block(B), not grounded(B).
#show on/2.
