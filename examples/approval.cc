% A workflow and a policy: what is paid was asked for by one person and approved by another. The claim is the policy.
:- sorts person.
:- objects ann, bob :: person.
:- variables P :: person.
:- constants asked(person), approved(person), paid :: inertialFluent;
  ask(person), approve(person), pay :: exogenousAction.
ask(P) causes asked(P).
approve(P) causes approved(P).
pay causes paid.
nonexecutable pay if -[\/P | approved(P)].
nonexecutable pay if -[\/P | asked(P)].
noconcurrency.
% It fails: nothing keeps who asks from approving.
:- query label :: policy; maxstep :: 0..3;
  0: -paid & -[\/P | asked(P)] & -[\/P | approved(P)]; maxstep: paid;
  claim :: maxstep: (asked(ann) & approved(bob)) ++ (asked(bob) & approved(ann)).
