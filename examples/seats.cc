% Who sits where in a car: sorts, variables, a test and brackets.
:- sorts person >> child; seat.
:- objects ann :: person; ben :: child; front, left, right :: seat.
:- variables P, Q :: person; C :: child; S :: seat.
:- constants sits(person) :: simpleFluent(seat).
% No two on one seat; no child in front; somebody drives.
constraint -(sits(P)=S & sits(Q)=S) where P\=Q.
constraint sits(C)\=front.
constraint [\/P | sits(P)=front].
:- query label :: 1; maxstep :: 0.
