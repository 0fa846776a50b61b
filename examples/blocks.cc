% Blocks world: three blocks on a table are put into a tower.
:- sorts place >> block; level.
:- objects a, b, c :: block; table :: place; l1, l2, l3 :: level.
:- variables B, C :: block; P :: place.
:- constants on(block) :: inertialFluent(place); height(block) :: sdFluent(level);
  move(block) :: exogenousAction; to(block) :: attribute(place) of move(block).
move(B) causes on(B)=P if to(B)=P.
% No two blocks stand on one.
constraint -(on(B)=P & on(C)=P) where B\=C & P\=table.
% A height has no cause but the height of what is below. So blocks that stand on one another in a circle, or a block that
% stands on itself, have none, and are in no state: see circles.cc.
caused height(B)=l1 if on(B)=table.
caused height(B)=l2 if on(B)=C & height(C)=l1.
caused height(B)=l3 if on(B)=C & height(C)=l2.
% A block moves only while nothing is on it.
nonexecutable move(B) if on(C)=B.
noconcurrency.
:- query label :: 1; maxstep :: 0..3; 0: on(a)=table & on(b)=table & on(c)=table; maxstep: on(a)=b & on(b)=c.
% All states: three blocks can stand in thirteen ways.
:- query label :: states; maxstep :: 0.
