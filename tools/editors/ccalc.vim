" Highlighting of descriptions of ccalc.
if exists("b:current_syntax")
  finish
endif

syn keyword ccalcLaw caused if after default inertial exogenous constraint always nonexecutable causes may cause where noconcurrency
syn keyword ccalcDirective maxstep label claim sorts objects variables constants query include of
syn keyword ccalcKind simpleFluent inertialFluent sdFluent rigid action exogenousAction attribute
syn keyword ccalcValue true false none
syn match ccalcNumber "\<[0-9]\+\>"
syn match ccalcMark ":-\|::\|>>\|>=\|=<\|\.\.\|\\=\|=\|&\|++\|+\|->>\|<->\|-\|<\|>\|/\\\|\\/"
syn region ccalcName start="'" end="'" oneline
syn match ccalcComment "%.*$"

hi def link ccalcLaw Keyword
hi def link ccalcDirective Statement
hi def link ccalcKind Type
hi def link ccalcValue Constant
hi def link ccalcNumber Number
hi def link ccalcMark Operator
hi def link ccalcName String
hi def link ccalcComment Comment

setlocal commentstring=%\ %s
let b:current_syntax = "ccalc"
