" Vim syntax of programs (*.tvp) of tvla; docs/FORMATS.md has the grammar.
if exists('b:current_syntax')
  finish
endif

syntax match tvpMark '==>\|<->\|->\|==\|!=\|[-+*=!&|?:]'
syntax match tvpUnknownDirective '%[A-Za-z]\+'
syntax match tvpDirective '%\%(s\|p\|i\|r\|action\|t\|f\|message\|new\|retain\)[A-Za-z]\@!'
syntax match tvpPart '%%'
syntax keyword tvpRepeat foreach in
syntax match tvpQuantifier '\<\%(E\|A\|TC\)\>\ze\s*('
syntax keyword tvpProperty unique function invfunction abs nonabs transitive reflexive symmetric box pointer
syntax keyword tvpFresh isNew
syntax match tvpValue '\<\%(0\|1/2\|1\)\>'
syntax region tvpText start='"' end='"' oneline
syntax match tvpLineComment '//.*$' contains=tvpTodo
syntax region tvpComment start='/\*' end='\*/' contains=tvpTodo
syntax keyword tvpTodo TODO FIXME contained
syntax match tvpInclude '^\s*#.*$' contains=tvpText

highlight default link tvpMark Operator
highlight default link tvpDirective Statement
highlight default link tvpUnknownDirective Error
highlight default link tvpPart PreProc
highlight default link tvpRepeat Repeat
highlight default link tvpQuantifier Keyword
highlight default link tvpProperty Type
highlight default link tvpFresh Special
highlight default link tvpValue Constant
highlight default link tvpText String
highlight default link tvpLineComment Comment
highlight default link tvpComment Comment
highlight default link tvpTodo Todo
highlight default link tvpInclude Include

setlocal commentstring=//\ %s
let b:current_syntax = 'tvp'
