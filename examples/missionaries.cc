% Two missionaries and two cannibals cross a river in a boat for two. Where a missionary is, there are not more cannibals.
:- sorts person >> missionary; person >> cannibal; side.
:- objects m1, m2 :: missionary; c1, c2 :: cannibal; here, there :: side.
:- variables P, Q, R :: person; M, N :: missionary; C, D :: cannibal; S :: side.
:- constants at(person) :: inertialFluent(side); boat :: inertialFluent(side); cross(person) :: exogenousAction.
cross(P) causes at(P)=S if boat\=S.
cross(P) causes boat=S if boat\=S.
nonexecutable cross(P) if at(P)\=boat.
always -(cross(P) & cross(Q) & cross(R)) where P\=Q & P\=R & Q\=R.
constraint -(at(M)=S & at(N)\=S & at(C)=S & at(D)=S) where M\=N & C\=D.
:- query label :: plan; maxstep :: 0..5; 0: [/\P | at(P)=here] & boat=here; maxstep: [/\P | at(P)=there].
