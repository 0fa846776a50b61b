% The river with a rule too many: the wolf must not be left alone with the cabbage either. There is no plan, however long.
:- sorts thing; side.
:- objects wolf, goat, cabbage :: thing; here, there :: side.
:- variables T, U :: thing; S :: side.
:- constants at(thing) :: inertialFluent(side); farmer :: inertialFluent(side);
  cross :: exogenousAction; with(thing) :: exogenousAction.
cross causes farmer=there if farmer=here.
cross causes farmer=here if farmer=there.
with(T) causes at(T)=there if at(T)=here.
with(T) causes at(T)=here if at(T)=there.
always with(T) ->> cross.
nonexecutable with(T) if at(T)\=farmer.
always -(with(T) & with(U)) where T\=U.
constraint at(T)=at(U) ->> farmer=at(T) where T\=U.
:- query label :: plan; maxstep :: 0..20;
  0: farmer=here & at(wolf)=here & at(goat)=here & at(cabbage)=here;
  maxstep: farmer=there & at(wolf)=there & at(goat)=there & at(cabbage)=there.
