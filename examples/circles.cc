% Causes in a circle: with two blocks, the laws of blocks.cc without heights have a state too many.
:- sorts place >> block.
:- objects a, b :: block; table :: place.
:- variables B, C :: block; P :: place.
:- constants on(block) :: inertialFluent(place); grounded(block) :: sdFluent.
constraint -(on(B)=P & on(C)=P) where B\=C & P\=table.
constraint on(B)\=B.
% This does not help: where a stands on b and b on a, that a is grounded causes that b is, and the other way round.
default -grounded(B).
caused grounded(B) if on(B)=table.
caused grounded(B) if on(B)=C & grounded(C).
constraint grounded(B).
:- query label :: states; maxstep :: 0.
