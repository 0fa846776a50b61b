% A lamp and darkness exclude each other. As a cause this changes more than was done: the lamp puts an end to the darkness.
:- constants on, dark :: inertialFluent; press :: exogenousAction.
press causes on.
caused -dark if on.
:- query label :: press; maxstep :: 1; 0: dark & press.
