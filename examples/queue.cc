% A printer and its jobs: a job waits, is printed, and is done; no two are printed at once.
:- sorts job; stage.
:- objects letter, report :: job; waiting, printing, done :: stage.
:- variables J, K :: job.
:- constants at(job) :: inertialFluent(stage); start(job), finish(job) :: exogenousAction.
start(J) causes at(J)=printing.
finish(J) causes at(J)=done.
nonexecutable start(J) if at(J)\=waiting.
nonexecutable finish(J) if at(J)\=printing.
constraint -(at(J)=printing & at(K)=printing) where J\=K.
:- query label :: plan; maxstep :: 0..4; 0: [/\J | at(J)=waiting]; maxstep: [/\J | at(J)=done].
