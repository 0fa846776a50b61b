% Birds fly, unless they are penguins: a default, and an exception.
:- sorts bird.
:- objects tweety, pingu :: bird.
:- variables B :: bird.
:- constants penguin(bird) :: rigid; flies(bird) :: sdFluent.
default flies(B).
caused -flies(B) if penguin(B).
:- query label :: 1; maxstep :: 0; 0: penguin(pingu) & -penguin(tweety).
