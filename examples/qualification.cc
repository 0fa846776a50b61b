% A lamp and darkness exclude each other. As a constraint this takes the action away: in the dark the lamp cannot be put on.
:- constants on, dark :: inertialFluent; press :: exogenousAction.
press causes on.
constraint -(on & dark).
:- query label :: press; maxstep :: 1; 0: dark & press.
