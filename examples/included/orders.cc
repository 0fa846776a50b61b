% The laws of orders, for any orders: each is received, packed and sent. Only one is packed at a time.
:- sorts order; stage.
:- objects received, packed, sent :: stage.
:- variables O, P :: order.
:- constants at(order) :: inertialFluent(stage); pack(order), send(order) :: exogenousAction.
pack(O) causes at(O)=packed.
send(O) causes at(O)=sent.
nonexecutable pack(O) if at(O)\=received.
nonexecutable send(O) if at(O)\=packed.
always -(pack(O) & pack(P)) where O\=P.
