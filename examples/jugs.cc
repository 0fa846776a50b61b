% Two jugs, of three and of five litres. Each is filled, emptied, or poured into the other one. How are four litres measured?
:- sorts litres >> few.
:- objects 0..5 :: litres; 0..3 :: few.
:- variables X :: few; Y :: litres.
:- constants small :: inertialFluent(few); large :: inertialFluent(litres);
  fillSmall, fillLarge, emptySmall, emptyLarge, toSmall, toLarge :: exogenousAction.
fillSmall causes small=3. fillLarge causes large=5.
emptySmall causes small=0. emptyLarge causes large=0.
% All of it fits, or so much as there is room for.
toLarge causes large=X+Y & small=0 if small=X & large=Y & X+Y=<5.
toLarge causes large=5 & small=X+Y-5 if small=X & large=Y & X+Y>5.
toSmall causes small=X+Y & large=0 if small=X & large=Y & X+Y=<3.
toSmall causes small=3 & large=X+Y-3 if small=X & large=Y & X+Y>3.
noconcurrency.
:- query label :: four; maxstep :: 0..6; 0: small=0 & large=0; maxstep: large=4.
