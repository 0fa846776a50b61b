% Two orders under the laws of another file. They are declared behind these laws, and count for them all the same.
:- include 'examples/included/orders.cc'.
:- objects first, second :: order.
:- query label :: plan; maxstep :: 0..4; 0: [/\O | at(O)=received]; maxstep: [/\O | at(O)=sent].
