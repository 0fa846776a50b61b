% A farmer takes a wolf, a goat and a cabbage over a river, one at a time. What must not be left alone together?
:- sorts thing; side.
:- objects wolf, goat, cabbage :: thing; here, there :: side.
:- variables T :: thing; S :: side.
:- constants at(thing) :: inertialFluent(side); farmer :: inertialFluent(side);
  cross :: exogenousAction; with(thing) :: exogenousAction.
cross causes farmer=there if farmer=here.
cross causes farmer=here if farmer=there.
with(T) causes at(T)=there if at(T)=here.
with(T) causes at(T)=here if at(T)=there.
always with(T) ->> cross.
nonexecutable with(T) if at(T)\=farmer.
always -(with(wolf) & with(goat)).
always -(with(wolf) & with(cabbage)).
always -(with(goat) & with(cabbage)).
constraint at(goat)=at(wolf) ->> farmer=at(goat).
constraint at(goat)=at(cabbage) ->> farmer=at(goat).
:- query label :: plan; maxstep :: 0..7;
  0: farmer=here & at(wolf)=here & at(goat)=here & at(cabbage)=here;
  maxstep: farmer=there & at(wolf)=there & at(goat)=there & at(cabbage)=there.
