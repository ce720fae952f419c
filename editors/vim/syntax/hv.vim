" Vim syntax of hv.
if exists('b:current_syntax')
  finish
endif

syntax keyword hvControl await else for if in return spawn while
syntax keyword hvDeclares fun struct task var
syntax keyword hvPasses inout let set sink
syntax keyword hvBuiltIn count filled print
syntax keyword hvType Bool Int
syntax keyword hvTruth false true
syntax match hvNumber '\<[0-9]\+\>'
syntax match hvOperator '->\|==\|!=\|<=\|>=\|&&\|||\|[=<>+*/%!&-]'
syntax match hvComment '//.*$'

highlight default link hvControl Keyword
highlight default link hvDeclares Structure
highlight default link hvPasses StorageClass
highlight default link hvBuiltIn Function
highlight default link hvType Type
highlight default link hvTruth Boolean
highlight default link hvNumber Number
highlight default link hvOperator Operator
highlight default link hvComment Comment

let b:current_syntax = 'hv'
