" Statements of opprove, of both languages: docs/FORMATS.md has them.
if exists("b:current_syntax")
  finish
endif

" The words mean something only at the beginning of a line, and these four at their places.
syntax match opproveStatement "^\s*\zs\(object\|map\|assume\|claim\|pinv\|inverse\|inner\|projection\|order\|eliminate\|solve\|model\)\>"
syntax match opproveStatement "^\s*\zslanguage\ze\s\+0*2\s*\(#\|$\)"
syntax match opproveOption "\(^\s*order\s\+\)\@<=\(degree\|weight\)\>"
syntax match opproveOption "\(->\s*\k\+\s\+\)\@<=self\ze\s*\(#\|$\)"
syntax match opproveIdentity "\[\s*\k\+\s*\]"
syntax match opproveNumber "\<\d\+"
syntax match opproveSign "->\|[:=+'^-]"
syntax match opproveComment "#.*$" contains=@Spell

highlight default link opproveStatement Statement
highlight default link opproveOption Type
highlight default link opproveIdentity Constant
highlight default link opproveNumber Number
highlight default link opproveSign Operator
highlight default link opproveComment Comment

let b:current_syntax = "opprove"
