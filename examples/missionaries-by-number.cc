% Three missionaries and three cannibals cross a river in a boat for two. Nobody has a name: who is on this side is counted.
:- sorts number >> crew.
:- objects 0..3 :: number; 0..2 :: crew.
:- variables N :: number; X :: crew.
:- constants missionaries, cannibals :: inertialFluent(number); here :: inertialFluent;
  cross :: exogenousAction; ms, cs :: attribute(crew) of cross.
cross causes missionaries=N-X if missionaries=N & ms=X & here.
cross causes missionaries=N+X if missionaries=N & ms=X & -here.
cross causes cannibals=N-X if cannibals=N & cs=X & here.
cross causes cannibals=N+X if cannibals=N & cs=X & -here.
cross causes -here if here. cross causes here if -here.
nonexecutable cross if ms+cs<1 ++ ms+cs>2.
nonexecutable cross if here & (ms>missionaries ++ cs>cannibals).
nonexecutable cross if -here & (missionaries+ms>3 ++ cannibals+cs>3).
% Where a missionary is, on this side or on the other one, there are not more cannibals.
constraint missionaries=0 ++ missionaries>=cannibals.
constraint missionaries=3 ++ 3-missionaries>=3-cannibals.
:- query label :: plan; maxstep :: 0..11; 0: missionaries=3 & cannibals=3 & here; maxstep: missionaries=0 & cannibals=0.
