% A lift for goods: it never moves while its door is open. Is that so for ever?
:- constants moving, open, bolted :: inertialFluent;
  start, stop, bolt, unbolt, push, pull :: exogenousAction.
start causes moving. nonexecutable start if moving ++ -bolted.
stop causes -moving. nonexecutable stop if -moving.
bolt causes bolted. nonexecutable bolt if bolted ++ open.
unbolt causes -bolted. nonexecutable unbolt if -bolted ++ moving.
pull causes open. nonexecutable pull if open ++ bolted.
push causes -open. nonexecutable push if -open.
noconcurrency.
:- query label :: safe; maxstep :: 0..3; 0: -moving & -open & -bolted; claim :: maxstep: -(moving & open).
% The same, with what the bolt is for: it is shot while the lift moves, and only behind a shut door.
:- query label :: bolt; maxstep :: 0..3; 0: -moving & -open & -bolted;
  claim :: maxstep: -(moving & open) & (moving ->> bolted) & (bolted ->> -open).
