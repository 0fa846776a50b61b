% The workflow of approval.cc with two laws more: who asked cannot approve, and who approved cannot ask.
:- sorts person.
:- objects ann, bob :: person.
:- variables P :: person.
:- constants asked(person), approved(person), paid :: inertialFluent;
  ask(person), approve(person), pay :: exogenousAction.
ask(P) causes asked(P).
approve(P) causes approved(P).
pay causes paid.
nonexecutable pay if -[\/P | approved(P)].
nonexecutable pay if -[\/P | asked(P)].
nonexecutable approve(P) if asked(P).
nonexecutable ask(P) if approved(P).
noconcurrency.
:- query label :: policy; maxstep :: 0..3;
  0: -paid & -[\/P | asked(P)] & -[\/P | approved(P)]; maxstep: paid;
  claim :: maxstep: (asked(ann) & approved(bob)) ++ (asked(bob) & approved(ann)).
