" Vim syntax of source programs (*.src) of tvla; docs/FORMATS.md has the grammar.
if exists('b:current_syntax')
  finish
endif

syntax match tvlasrcMark '->\|==\|!=\|[=*]'
syntax keyword tvlasrcDeclaration vars fields
syntax keyword tvlasrcStatement if else while
syntax keyword tvlasrcValue null new
syntax match tvlasrcLineComment '//.*$'
syntax region tvlasrcComment start='/\*' end='\*/'

highlight default link tvlasrcMark Operator
highlight default link tvlasrcDeclaration Type
highlight default link tvlasrcStatement Statement
highlight default link tvlasrcValue Constant
highlight default link tvlasrcLineComment Comment
highlight default link tvlasrcComment Comment

setlocal commentstring=//\ %s
let b:current_syntax = 'tvlasrc'
