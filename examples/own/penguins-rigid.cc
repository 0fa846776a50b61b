% The trap: a default does not fill a table that is `rigid`, since a rigid value may begin as it likes.
:- sorts bird.
:- objects tweety, pingu :: bird.
:- variables B :: bird.
:- constants penguin(bird) :: rigid; flies(bird) :: sdFluent.
default -penguin(B).
caused penguin(pingu).
default flies(B).
caused -flies(B) if penguin(B).
:- query label :: table; maxstep :: 0.
