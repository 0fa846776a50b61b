% Who washes up, as in examples/dishes.cc, for clingo:  clingo 0 examples/clingo/dishes.lp
home(ann; bob).
washes(ann) : home(ann); washes(bob) : home(bob); washes(eve) : home(eve).
#show washes/1.
