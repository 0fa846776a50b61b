% A fixed table: which birds are penguins. What no law names is false, by the default.
:- sorts bird.
:- objects tweety, pingu :: bird.
:- variables B :: bird.
:- constants penguin(bird), flies(bird) :: sdFluent.
default -penguin(B).
caused penguin(pingu).
default flies(B).
caused -flies(B) if penguin(B).
:- query label :: table; maxstep :: 0.
