% The lamp of examples/lamp.cc at horizon m, for clingo:  clingo 0 -c m=1 examples/clingo/lamp.lp
#const m = 1.
step(0..m).
1 { on(0); -on(0) } 1.
{ flip(T) } :- step(T), T < m.
on(T+1) :- flip(T), -on(T).
-on(T+1) :- flip(T), on(T).
on(T+1) :- on(T), not -on(T+1), step(T+1).
-on(T+1) :- -on(T), not on(T+1), step(T+1).
:- not -on(0).
:- not on(m).
#show on/1.
#show flip/1.
