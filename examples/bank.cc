% Two accounts, and what the one pays to the other. While both amounts are there the sum stays; where one is not, money is lost.
:- sorts account; amount >> payment.
:- objects ann, ben :: account; 0..4 :: amount; 1, 2 :: payment.
:- variables A, B :: account; X :: amount; P :: payment.
:- constants balance(account) :: inertialFluent(amount);
  pay(account) :: exogenousAction; paid(account) :: attribute(payment) of pay(account).
pay(A) causes balance(A)=X-P if balance(A)=X & paid(A)=P.
pay(A) causes balance(B)=X+P if balance(B)=X & paid(A)=P where A\=B.
nonexecutable pay(A) if paid(A)>balance(A).
noconcurrency.
:- query label :: kept; maxstep :: 0..3; 0: balance(ann)=3 & balance(ben)=1; claim :: maxstep: balance(ann)+balance(ben)=4.
% Ben may not have five: that he has it is the head of no law, and he keeps his four.
:- query label :: lost; maxstep :: 1; 0: balance(ann)=1 & balance(ben)=4; claim :: 1: balance(ann)+balance(ben)=5.
