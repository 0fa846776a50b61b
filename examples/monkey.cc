% A monkey, bananas that hang out of its reach, and a box. Which steps lead to the bananas?
:- sorts thing; location.
:- objects monkey, bananas, box :: thing; l1, l2, l3 :: location.
:- variables L :: location.
:- constants
  loc(thing) :: inertialFluent(location);
  hasBananas, onBox :: inertialFluent;
  walk(location), pushBox(location), climbOn, climbOff, graspBananas :: exogenousAction.
caused loc(bananas)=L if hasBananas & loc(monkey)=L.
caused loc(monkey)=L if onBox & loc(box)=L.
walk(L) causes loc(monkey)=L.
nonexecutable walk(L) if loc(monkey)=L.
nonexecutable walk(L) if onBox.
pushBox(L) causes loc(box)=L & loc(monkey)=L.
nonexecutable pushBox(L) if loc(monkey)=L.
nonexecutable pushBox(L) if onBox.
nonexecutable pushBox(L) if loc(monkey)\=loc(box).
climbOn causes onBox.
nonexecutable climbOn if onBox.
nonexecutable climbOn if loc(monkey)\=loc(box).
climbOff causes -onBox.
nonexecutable climbOff if -onBox.
graspBananas causes hasBananas.
nonexecutable graspBananas if hasBananas.
nonexecutable graspBananas if -onBox.
nonexecutable graspBananas if loc(monkey)\=loc(bananas).
noconcurrency.
:- query label :: 1; maxstep :: 0..10;
  0: loc(monkey)=l1, loc(bananas)=l2, loc(box)=l3;
  maxstep: hasBananas.
% Three steps are too few.
:- query label :: early; maxstep :: 0..3;
  0: loc(monkey)=l1, loc(bananas)=l2, loc(box)=l3;
  maxstep: hasBananas.
