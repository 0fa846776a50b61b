% The workflow of approval-mended.cc, where only one person may approve, and may hand that right on.
:- sorts person.
:- objects ann, bob :: person.
:- variables P, Q :: person.
:- constants asked(person), approved(person), paid :: inertialFluent; approver :: inertialFluent(person);
  ask(person), approve(person), delegate, pay :: exogenousAction.
ask(P) causes asked(P).
approve(P) causes approved(P).
pay causes paid.
% This law does for two people: Q is the other one. With more, an attribute of delegate has to say to whom.
delegate causes approver=Q if approver\=Q.
nonexecutable approve(P) if approver\=P.
nonexecutable pay if -[\/P | approved(P)].
nonexecutable pay if -[\/P | asked(P)].
nonexecutable approve(P) if asked(P).
nonexecutable ask(P) if approved(P).
noconcurrency.
:- query label :: policy; maxstep :: 0..4;
  0: -paid & -[\/P | asked(P)] & -[\/P | approved(P)] & approver=ann; maxstep: paid;
  claim :: maxstep: (asked(ann) & approved(bob)) ++ (asked(bob) & approved(ann)).
