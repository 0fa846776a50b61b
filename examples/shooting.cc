% The shooting domain: one description, asked forwards, backwards and for a plan.
:- constants loaded, alive :: inertialFluent; load, shoot :: exogenousAction.
load causes loaded.
nonexecutable load if loaded.
shoot causes -alive if loaded.
shoot causes -loaded.
noconcurrency.
% Planning: the turkey is alive and the gun not loaded. How does it come to be dead?
:- query label :: plan; maxstep :: 0..3; 0: alive & -loaded; maxstep: -alive.
% Postdiction: it was alive, there was a shot, and now it is dead. What was so before?
:- query label :: before; maxstep :: 1; 0: alive; 0: shoot; maxstep: -alive.
% Prediction: the gun is loaded, and then there is a shot. What comes of it?
:- query label :: next; maxstep :: 2; 0: alive & -loaded; 0: load; 1: shoot.
% A claim: shooting at once does no harm where the gun is not loaded.
:- query label :: harmless; maxstep :: 1; 0: alive & -loaded; 0: shoot; claim :: 1: alive.
