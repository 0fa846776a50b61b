% The family `swaps` of checks/families.py, law by law, as translations of C+ into answer sets have it: a fluent has one value at each
% step; what is exogenous or inertial is a choice, and an effect a rule. n is its size, m the horizon; all answers are asked for.
number(1..n). time(0..m). step(0..m-1).
:- number(X), time(T), not 1 { at(X,P,T) : number(P) } 1.
{ at(X,P,0) : number(P) } :- number(X).
{ at(X,P,T+1) } :- at(X,P,T), step(T).
{ swap(T) } :- step(T).
1 { first(X,T) : number(X) } 1 :- swap(T).
1 { second(X,T) : number(X) } 1 :- swap(T).
at(X,P,T+1) :- swap(T), first(X,T), second(Y,T), at(Y,P,T).
at(Y,P,T+1) :- swap(T), first(X,T), second(Y,T), at(X,P,T).
:- swap(T), first(X,T), second(Y,T), X >= Y.
:- at(X,P,T), at(Y,P,T), X < Y.
:- number(X), not at(X,X,0).
:- at(1,1,m).
#show at/3. #show swap/1. #show first/2. #show second/2.
