% A bell that rings where its button is pressed, and never by itself: an action that is caused by another one.
:- constants press :: exogenousAction; ring :: action.
default -ring.
press causes ring.
% Each time it is pressed it rings.
:- query label :: rings; maxstep :: 1; 0: press; claim :: 0: ring.
% It rings and is not pressed: no history is so, and a claim about none of them holds.
:- query label :: alone; maxstep :: 1; 0: ring & -press; claim :: 0: press.
