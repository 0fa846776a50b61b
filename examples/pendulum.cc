% A pendulum swings from side to side by itself, unless it is held.
:- constants right :: simpleFluent; hold :: exogenousAction.
default right after -right.
default -right after right.
hold causes right if right.
hold causes -right if -right.
:- query label :: 1; maxstep :: 3; 0: right & -hold; 1: hold; 2: -hold.
