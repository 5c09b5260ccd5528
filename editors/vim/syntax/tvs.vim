" Vim syntax of structures (*.tvs) and reports of tvla; docs/FORMATS.md has the grammar.
if exists('b:current_syntax')
  finish
endif

syntax match tvsMark '->\|[=:]'
syntax match tvsDirective '%[np][A-Za-z]\@!'
syntax match tvsSummary '\<sm\>\ze\s*='
syntax match tvsValue '\%([:=]\s*\)\@<=\%(0\|1/2\|1\)\>'
syntax keyword tvsReport tvla report node structures message map initial edge to end step free
syntax region tvsText start='"' end='"' oneline
syntax match tvsLineComment '//.*$'
syntax region tvsComment start='/\*' end='\*/'

highlight default link tvsMark Operator
highlight default link tvsDirective Statement
highlight default link tvsSummary Special
highlight default link tvsValue Constant
highlight default link tvsReport Keyword
highlight default link tvsText String
highlight default link tvsLineComment Comment
highlight default link tvsComment Comment

setlocal commentstring=//\ %s
let b:current_syntax = 'tvs'
