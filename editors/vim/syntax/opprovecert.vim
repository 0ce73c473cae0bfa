" Evidence text and reports of opprove: docs/FORMATS.md has the grammar.
if exists("b:current_syntax")
  finish
endif

syntax match opprovecertBlock "^\s*\zs\(certificate\|cancellation\|basis\|model\|chain\|star\s\+proof\|rational\s\+model\)\>"
syntax match opprovecertBlock "^\s*\zsend\ze\s*$"
syntax match opprovecertWord "^\s*\zs\(claim\|denominator\|row\|rule\|rest\|modulus\|side\|map\|line\|use\|square\)\>"
syntax match opprovecertWord "^\s*\zslemma\s\+\d\+\s\+scale\>"
syntax match opprovecertWord "^\s*\zsgoal\s\+scale\>"
syntax match opprovecertWord "^\s*\zs\(monic\|epic\)\>"
syntax match opprovecertWord "^\s*\zs\(cancel\|root\)\ze\s\+\d"
syntax match opprovecertLemma "\(^\s*cancel\s\+\d\+\s\+\S\+\s\+\)\@<=\(left\|right\)\ze\s\+\d"
syntax match opprovecertLemma "\(^\s*root\s\+\d\+\s\+\)\@<=\(left\|right\)\ze\s\+\d"
syntax match opprovecertLemma "\()\s*\)\@<=lemma\ze\s\+\d"
syntax match opprovecertIdentity "\[[^] \t]*\]"
syntax match opprovecertNumber "\(^\|[ \t()=;]\)\@<=-\?\d\+\>"
syntax match opprovecertSign "[ \t]\@1<=[+-]\ze[ \t]"
syntax match opprovecertComment "^\s*#.*$" contains=@Spell

highlight default link opprovecertBlock Statement
highlight default link opprovecertWord Keyword
highlight default link opprovecertLemma Keyword
highlight default link opprovecertIdentity Constant
highlight default link opprovecertNumber Number
highlight default link opprovecertSign Operator
highlight default link opprovecertComment Comment

let b:current_syntax = "opprovecert"
