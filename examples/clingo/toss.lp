% The coin of examples/toss.cc at horizon 1 for clingo:  clingo 0 examples/clingo/toss.lp
1 { heads(0); -heads(0) } 1.
{ toss(0) }.
1 { heads(1); -heads(1) } 1 :- toss(0).
heads(1) :- heads(0), not toss(0).
-heads(1) :- -heads(0), not toss(0).
:- not -heads(0).
:- not toss(0).
#show heads/1.
#show -heads/1.
