% A door that needs a key: what an action needs before it can be done.
:- constants open, hasKey :: inertialFluent; take, push :: exogenousAction.
take causes hasKey.
push causes open.
nonexecutable push if -hasKey.
:- query label :: 1; maxstep :: 0..3; 0: -open & -hasKey; maxstep: open.
