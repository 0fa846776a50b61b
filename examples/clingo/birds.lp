% The birds of examples/birds.cc for clingo:  clingo 0 examples/clingo/birds.lp
bird(tweety; pingu).
penguin(pingu).
flies(B) :- bird(B), not -flies(B).
-flies(B) :- penguin(B).
#show flies/1.
#show -flies/1.
